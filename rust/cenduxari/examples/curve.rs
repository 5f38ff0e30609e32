//! Draws the delivery curve of a unit: two trading days of a mill, then its 48 half hours as an SVG.
//! The picture goes to the file that the first word names, or to docs/curve.svg.

use cenduxari::{Book, Curve, Direction, Kind, Refusal};
use std::env;
use std::error::Error;
use std::fmt::Display;
use std::fs;
use std::path::{Path, PathBuf};

fn main() -> Result<(), Box<dyn Error>> {
    let kept = || Path::new(env!("CARGO_MANIFEST_DIR")).join("../../docs/curve.svg");
    let file = env::args_os().nth(1).map_or_else(kept, PathBuf::from);
    fs::write(&file, picture()?)?;
    println!("{} has the curve of the mill.", file.display());
    Ok(())
}

/// The picture of the mill's day.
pub fn picture() -> Result<String, Refusal> {
    Ok(drawn(&mill_day()?))
}

/// The mill's curve: a bilateral contract, part of a solar listing, an evening bought at the clearing, and a midday
/// break sold on the next trading day.
fn mill_day() -> Result<Curve, Refusal> {
    let mut book = Book::open(1, 0, 1_000_000)?;
    let plant = book.enrol(Kind::Generator, 20_000, 0)?;
    let solar = book.enrol(Kind::Solar, 6_000, 0)?;
    let retailer = book.enrol(Kind::Retailer, 5_000, 60_000)?;
    let mill = book.enrol(Kind::WholesaleUser, MILL, 0)?;

    let mut base = [1_200; 24];
    base[5..7].copy_from_slice(&[1_500, 2_200]);
    base[7..19].fill(2_800);
    base[19..22].copy_from_slice(&[2_400, 2_000, 1_600]);
    let contract = book.offer(plant, Some(mill), 415_000, &base)?;
    book.take(mill, contract, base.iter().sum())?;

    let mut sun = [0; 24];
    sun[6..20].copy_from_slice(&[
        150, 600, 1_300, 2_100, 2_900, 3_500, 3_800, 3_700, 3_300, 2_600, 1_800, 1_000, 400, 50,
    ]);
    let listing = book.offer(solar, None, 320_000, &sun)?;
    book.take(mill, listing, 14_000)?;

    for (hour, quantity) in [(17, 700), (18, 1_350), (19, 1_500), (20, 1_100), (21, 500)] {
        book.order(mill, Direction::Buy, hour, 520_000, quantity)?;
        book.order(plant, Direction::Sell, hour, 480_000, quantity)?;
    }
    book.clear()?;
    book.close()?;

    book.clear()?;
    for (hour, quantity) in [(12, 1_300), (13, 700)] {
        book.order(retailer, Direction::Buy, hour, 450_000, quantity)?;
        book.order(mill, Direction::Sell, hour, 440_000, quantity)?;
    }
    book.curve(mill, 0)
}

/// The mill's capacity in kW, so its hour limit in kWh.
const MILL: u64 = 5_600;

// The plot in pixels, and its scale in kWh.
const LEFT: u64 = 76;
const RIGHT: u64 = LEFT + 48 * STEP;
const TOP: u64 = 74;
const BOTTOM: u64 = TOP + 280;
const STEP: u64 = 18;
const SCALE: u64 = 3_000;
const LINE: u64 = 500;

const INK: &str = "#222";
const GREY: &str = "#555";
const PALE: &str = "#ddd";
const BLUE: &str = "#2a6f97";
const RED: &str = "#c0392b";

/// The points as bars of half an hour, over hours and kWh.
fn drawn(curve: &Curve) -> String {
    let title = "Delivery curve of a mill, one day";
    let total = thousands(curve.total());
    let trades = "a bilateral contract, a solar listing, an evening cleared, a midday break sold";
    let mut svg = format!(
        "<svg xmlns='http://www.w3.org/2000/svg' viewBox='0 0 {} {}' font-family='sans-serif' \
         font-size='13'>\n<title>{title}</title>\n<rect width='100%' height='100%' fill='#fff'/>\n",
        RIGHT + 24,
        BOTTOM + 62,
    );
    svg += &text(LEFT, 30, INK, "font-size='18' font-weight='bold'", title);
    svg += &text(LEFT, 52, GREY, "", format!("48 half hours, {total} kWh: {trades}"));
    for kwh in (0..=SCALE).step_by(LINE as usize) {
        svg += &line((LEFT, up(kwh)), (RIGHT, up(kwh)), PALE, "");
        svg += &text(LEFT - 8, up(kwh) + 4, GREY, "text-anchor='end'", thousands(kwh));
    }
    for (x, point) in (LEFT..).step_by(STEP as usize).zip(curve.points) {
        svg += &bar(x + 1, STEP - 2, point);
    }
    svg += &line((LEFT, up(MILL / 2)), (RIGHT, up(MILL / 2)), RED, "stroke-dasharray='6 4'");
    svg += &text(LEFT + 6, up(MILL / 2) - 6, RED, "", "half the hour limit");
    svg += &line((LEFT, BOTTOM), (RIGHT, BOTTOM), INK, "");
    for hour in (0..=24).step_by(2) {
        let x = LEFT + 2 * STEP * hour;
        svg += &line((x, BOTTOM), (x, BOTTOM + 5), INK, "");
        svg += &text(x, BOTTOM + 20, GREY, "text-anchor='middle'", hour);
    }
    let (x, y) = ((LEFT + RIGHT) / 2, (TOP + BOTTOM) / 2);
    svg += &text(x, BOTTOM + 44, INK, "text-anchor='middle'", "hour of the day");
    let turned = format!("text-anchor='middle' transform='rotate(-90 18 {y})'");
    svg += &text(18, y, INK, &turned, "kWh per half hour");
    svg + "</svg>\n"
}

/// How far down the plot an amount stands.
fn up(kwh: u64) -> u64 {
    BOTTOM - kwh * (BOTTOM - TOP) / SCALE
}

fn bar(x: u64, width: u64, kwh: u64) -> String {
    let (y, height) = (up(kwh), BOTTOM - up(kwh));
    format!("<rect x='{x}' y='{y}' width='{width}' height='{height}' fill='{BLUE}'/>\n")
}

fn line((x1, y1): (u64, u64), (x2, y2): (u64, u64), colour: &str, style: &str) -> String {
    format!("<line x1='{x1}' y1='{y1}' x2='{x2}' y2='{y2}' stroke='{colour}' {style}/>\n")
}

fn text(x: u64, y: u64, colour: &str, style: &str, words: impl Display) -> String {
    format!("<text x='{x}' y='{y}' fill='{colour}' {style}>{words}</text>\n")
}

/// A number with a comma before each three digits.
fn thousands(n: u64) -> String {
    match n {
        0..=999 => n.to_string(),
        _ => format!("{},{:03}", thousands(n / 1_000), n % 1_000),
    }
}
