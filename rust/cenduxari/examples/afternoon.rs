//! The trader's story: what was bought this afternoon can't be sold before the day is closed.

use cenduxari::{Book, Direction, Kind, Refusal, Row, Rows};

fn main() -> Result<(), Refusal> {
    print!("{}", story()?);
    Ok(())
}

/// The story, with the engine's own answers.
pub fn story() -> Result<String, Refusal> {
    let mut book = Book::open(1, 0, 1_000_000)?;
    let solar = book.enrol(Kind::Solar, 3_000, 0)?;
    let retailer = book.enrol(Kind::Retailer, 2_000, 40_000)?;
    let mill = book.enrol(Kind::WholesaleUser, 1_500, 0)?;
    let mut said = String::from("This afternoon\n");

    let mut sun = [0; 24];
    sun[12..16].copy_from_slice(&[1_600, 1_800, 1_500, 1_100]);
    let listing = book.offer(solar, None, 380_000, &sun)?;
    said += "  The solar plant lists 6,000 kWh. The retailer takes 3,000 of it:\n";
    said += &lines(book.take(retailer, listing, 3_000)?);

    // It holds none of this yet: held is the net when the trading day began.
    said += "  The price has risen, and it orders the sale of 700 kWh of hour 14:\n";
    match book.order(retailer, Direction::Sell, 14, 455_000, 700) {
        Ok(ordered) => said += &format!("    accepted, number {}.\n", ordered.number),
        Err(refusal) => said += &format!("    refused, {}: {refusal}.\n", refusal.number()),
    }

    book.close()?;
    said += "After the close\n";
    let ordered = book.order(retailer, Direction::Sell, 14, 455_000, 700)?;
    said += &format!("  The same order is accepted, number {}.\n", ordered.number);
    book.clear()?;
    said += "  The mill buys it in the rolling phase:\n";
    said += &lines(book.order(mill, Direction::Buy, 14, 460_000, 700)?.rows);
    said += &format!("  The retailer's hour 14 is now {} kWh.\n", book.curve(retailer, 0)?.net(14));
    Ok(said)
}

/// A line for each row.
fn lines(rows: Rows) -> String {
    rows.map(line).collect()
}

fn line(Row { period, seller, buyer, quantity, price, .. }: Row) -> String {
    let (yuan, rest) = (price / 1_000, price % 1_000);
    format!(
        "    hour {period}: {quantity} kWh, unit {seller} to {buyer}, {yuan}.{rest:03} yuan/MWh\n"
    )
}
