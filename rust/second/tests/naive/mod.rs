//! Slow, literal renderings of single rules of the paper, written apart from the engine's.
//! Paper: "A book is sound if", "Limits", and "Order" and "Clear" in "The eight calls".

// Each file of tests uses some of these.
#![allow(dead_code)]
#![allow(clippy::manual_div_ceil)]

use second::book::{Book, Order};
use second::calls::Row;

/// The hour, term and volume limit of a unit.
pub fn limits(book: &Book, unit: usize, period: usize) -> [i128; 3] {
    let unit = &book.units[unit];
    let days = book.days as i128;
    let capacity = unit.capacity as i128;
    let hour = period % 24;
    match unit.kind {
        1 => {
            let term = capacity * 10 * days;
            [if (6..20).contains(&hour) { capacity } else { 0 }, term, 6 * term / 5]
        }
        2 => [capacity, capacity * 24 * days, 6 * (capacity * 24 * days) / 5],
        3 => [capacity, capacity * 24 * days, capacity * 24 * days],
        _ => {
            let term = (capacity * 24 * days).min(unit.asset as i128);
            [capacity, term, term]
        }
    }
}

fn generator(book: &Book, unit: u64) -> bool {
    book.units[unit as usize - 1].kind <= 2
}

/// Open raising and lowering of a unit in a period: a scan of all declarations.
pub fn open(book: &Book, unit: usize, period: usize) -> (i128, i128) {
    let mut raising = 0;
    let mut lowering = 0;
    for offer in &book.offers {
        if offer.unit == unit as u64 + 1 {
            raising += offer.amounts[period] as i128;
        }
    }
    for order in &book.orders {
        if order.unit == unit as u64 + 1 && order.period == period as u64 {
            let sells = order.direction == 0;
            if sells == generator(book, order.unit) {
                raising += order.quantity as i128;
            } else {
                lowering += order.quantity as i128;
            }
        }
    }
    (raising, lowering)
}

/// The first of 19, 20, 21 that a unit does not fit, or 0.
pub fn fit(book: &Book, unit: usize) -> u64 {
    let figures = &book.units[unit].figures;
    let mut term = 0;
    let mut volume = 0;
    for (period, figures) in figures.iter().enumerate() {
        let (raising, lowering) = open(book, unit, period);
        let held = figures.held as i128;
        let up = held + figures.raised as i128 + raising;
        if up > limits(book, unit, period)[0] || figures.lowered as i128 + lowering > held {
            return 19;
        }
        term += up;
        volume += figures.volume as i128 + raising + lowering;
    }
    let [_, term_limit, volume_limit] = limits(book, unit, 0);
    if term > term_limit {
        20
    } else if volume > volume_limit {
        21
    } else {
        0
    }
}

/// Is the book sound?
pub fn sound(book: &Book) -> bool {
    let in_frame = book.days >= 1
        && book.days <= 31
        && book.floor <= book.ceiling
        && book.ceiling <= 10_000_000
        && [0, 1].contains(&book.phase)
        && book.given <= 65_535
        && book.units.len() <= 64
        && book.offers.len() <= 8
        && book.orders.len() <= 256;
    if !in_frame {
        return false;
    }
    let periods = 24 * book.days;
    for unit in &book.units {
        if !(1..=4).contains(&unit.kind)
            || unit.capacity == 0
            || unit.capacity > 5_000_000
            || unit.asset > 4_000_000_000
            || unit.figures.len() as u64 != periods
            || unit.figures.iter().any(|figures| ![0, 1, 2, 3].contains(&figures.mark))
        {
            return false;
        }
    }
    let enrolled = |unit: u64| unit != 0 && unit <= book.units.len() as u64;
    for offer in &book.offers {
        let total: i128 = offer.amounts.iter().map(|&amount| amount as i128).sum();
        if !enrolled(offer.unit)
            || offer.price < book.floor
            || offer.price > book.ceiling
            || offer.taken > 1
            || offer.amounts.len() as u64 != periods
            || total == 0
            || total > 4_000_000_000
        {
            return false;
        }
        if offer.partner != 0 {
            if !enrolled(offer.partner) {
                return false;
            }
            if !generator(book, offer.unit) || generator(book, offer.partner) {
                return false;
            }
        }
    }
    for order in &book.orders {
        if !enrolled(order.unit)
            || order.direction > 1
            || order.period >= periods
            || order.price < book.floor
            || order.price > book.ceiling
            || order.quantity == 0
        {
            return false;
        }
    }
    if (0..book.units.len()).any(|unit| fit(book, unit) != 0) {
        return false;
    }
    let offered = book.offers.iter().map(|offer| offer.number);
    let ordered = book.orders.iter().map(|order| order.number);
    let rising = |numbers: Vec<u64>| numbers.windows(2).all(|two| two[0] < two[1]);
    if !rising(offered.clone().collect()) || !rising(ordered.clone().collect()) {
        return false;
    }
    let mut numbers: Vec<u64> = offered.chain(ordered).collect();
    numbers.sort();
    if numbers.windows(2).any(|two| two[0] == two[1])
        || numbers.iter().any(|&number| number == 0 || number > book.given)
    {
        return false;
    }
    for one in &book.orders {
        for other in &book.orders {
            let opposite = one.period == other.period && one.direction == 0 && other.direction == 1;
            if opposite && one.unit == other.unit {
                return false;
            }
            if opposite && book.phase == 1 && other.price >= one.price {
                return false;
            }
        }
    }
    true
}

/// The rule for clear, kWh by kWh and price by price: each order's fill, and the rows.
pub fn clear(orders: &[Order], ceiling: u64) -> (Vec<u64>, Vec<Row>) {
    let mut fills = vec![0; orders.len()];
    let mut rows = Vec::new();
    let last = orders.iter().map(|order| order.period).max().unwrap_or(0);
    for period in 0..=last {
        // Both sides laid kWh by kWh; each kWh is the place of its order.
        let side = |direction: u64| {
            let mut places: Vec<usize> = (0..orders.len())
                .filter(|&at| orders[at].period == period && orders[at].direction == direction)
                .collect();
            places.sort_by_key(|&at| (orders[at].price, orders[at].number));
            if direction == 1 {
                places.sort_by_key(|&at| std::cmp::Reverse(orders[at].price));
            }
            let mut laid = Vec::new();
            for at in places {
                for _ in 0..orders[at].quantity {
                    laid.push(at);
                }
            }
            laid
        };
        let (bids, asks) = (side(1), side(0));
        let mut volume = 0;
        for price in 0..=ceiling {
            let bidden = bids.iter().filter(|&&at| orders[at].price >= price).count();
            let asked = asks.iter().filter(|&&at| orders[at].price <= price).count();
            volume = volume.max(bidden.min(asked));
        }
        if volume == 0 {
            continue;
        }
        let marginal_bid = orders[bids[volume - 1]].price;
        let marginal_ask = orders[asks[volume - 1]].price;
        let price = (marginal_bid + marginal_ask + 1) / 2;
        let filled_bids = fill(orders, &bids, volume, marginal_bid, &mut fills);
        let filled_asks = fill(orders, &asks, volume, marginal_ask, &mut fills);
        let mut last = None;
        for (&bid, &ask) in filled_bids.iter().zip(&filled_asks) {
            if last != Some((bid, ask)) {
                let (seller, buyer) = (orders[ask].unit, orders[bid].unit);
                rows.push(Row { way: 3, period, seller, buyer, quantity: 0, price });
            }
            rows.last_mut().unwrap().quantity += 1;
            last = Some((bid, ask));
        }
    }
    (fills, rows)
}

/// The parts of d: each rounded down, then kWh by kWh to the largest fraction that has none yet, the first of equal ones.
pub fn parts(d: u64, amounts: &[u64]) -> Vec<u64> {
    let total: u128 = amounts.iter().map(|&amount| amount as u128).sum();
    let exact = |amount: &u64| d as u128 * *amount as u128;
    let mut parts: Vec<u64> = amounts.iter().map(|amount| (exact(amount) / total) as u64).collect();
    let mut fractions: Vec<u128> = amounts.iter().map(|amount| exact(amount) % total).collect();
    while parts.iter().sum::<u64>() < d {
        let largest = *fractions.iter().max().unwrap();
        let place = fractions.iter().position(|&fraction| fraction == largest).unwrap();
        parts[place] += 1;
        fractions[place] = 0;
    }
    parts
}

/// A side's fills, laid kWh by kWh.
fn fill(
    orders: &[Order],
    laid: &[usize],
    volume: usize,
    margin: u64,
    fills: &mut [u64],
) -> Vec<usize> {
    let better = laid[..volume].iter().copied().filter(|&at| orders[at].price != margin);
    let mut filled: Vec<usize> = better.collect();
    let marginal: Vec<usize> =
        laid.iter().copied().filter(|&at| orders[at].price == margin).collect();
    let d = volume - filled.len();
    let mut places = marginal.clone();
    places.dedup();
    let amounts: Vec<u64> = places.iter().map(|&at| orders[at].quantity).collect();
    for (at, part) in places.into_iter().zip(parts(d as u64, &amounts)) {
        filled.extend(vec![at; part as usize]);
    }
    for &at in &filled {
        fills[at] += 1;
    }
    filled
}

/// The matching of an incoming order: rows, and what is left of it. Scans for the best each time.
pub fn meet(waiting: &mut [Order], incoming: &Order) -> (Vec<Row>, u64) {
    let mut left = incoming.quantity;
    let mut rows = Vec::new();
    while left > 0 {
        let mut best: Option<usize> = None;
        for at in 0..waiting.len() {
            let order = &waiting[at];
            let (buy, sell) = if incoming.direction == 1 {
                (incoming.price, order.price)
            } else {
                (order.price, incoming.price)
            };
            if order.quantity == 0
                || order.period != incoming.period
                || order.direction == incoming.direction
                || buy < sell
            {
                continue;
            }
            let better = match best {
                None => true,
                Some(best) => {
                    let best = &waiting[best];
                    let gains = if incoming.direction == 1 {
                        order.price < best.price
                    } else {
                        order.price > best.price
                    };
                    gains || order.price == best.price && order.number < best.number
                }
            };
            if better {
                best = Some(at);
            }
        }
        let Some(best) = best else {
            break;
        };
        let order = &mut waiting[best];
        let quantity = left.min(order.quantity);
        order.quantity -= quantity;
        left -= quantity;
        let (seller, buyer) = if incoming.direction == 1 {
            (order.unit, incoming.unit)
        } else {
            (incoming.unit, order.unit)
        };
        let (period, price) = (order.period, order.price);
        rows.push(Row { way: 4, period, seller, buyer, quantity, price });
    }
    (rows, left)
}
