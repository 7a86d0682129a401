//! The limiter: settings, rows, and the moments at which a bucket turns.

use crate::calls::peers::{last_refill, time_near, up_to};
use crate::calls::{around, CORNERS, SHORT_CORNERS};
use crate::dice::Dice;
use crate::gossip::start::GossipStart;
use vocabulary::gossip::*;
use vocabulary::GossipRow;

pub fn settings(dice: &mut Dice, start: &mut GossipStart) {
    start.shorts[MOST] = match dice.below(10) {
        0 => dice.pick(&SHORT_CORNERS),
        1 => 10,
        2 => 0,
        _ => dice.between(1, 4),
    };
    start.longs[PERIOD] = match dice.below(12) {
        0 => dice.pick(&CORNERS),
        1 => 60_000,
        2 => 0,
        _ => dice.between(1, 12),
    };
}

pub fn rows(dice: &mut Dice, start: &GossipStart, count: u64, now: u64) -> Vec<(usize, [u64; 4])> {
    let (burst, interval) = (start.shorts[MOST], start.longs[PERIOD]);
    let row = |place: u64| {
        let available = up_to(dice, burst);
        let refilled = last_refill(dice, now, interval);
        let used = time_near(dice, now, interval);
        (place as usize, [available, refilled, used, 0])
    };
    (0..count).map(row).collect()
}

/// Around whole intervals after the last refill, around the one at which it is full, or around 2^32 of them.
pub fn moment(dice: &mut Dice, words: &GossipWords, row: &GossipRow) -> u64 {
    let n = &row.numbers;
    let interval = words.longs[PERIOD];
    let missing = u64::from(words.shorts[MOST]) - n[GossipRow::AVAILABLE];
    let intervals = match dice.below(6) {
        0 | 1 => dice.between(1, 3),
        2 | 3 => missing,
        4 => dice.near(1 << 32),
        _ => return dice.near(n[GossipRow::REFILL]),
    };
    around(dice, n[GossipRow::REFILL], interval.saturating_mul(intervals))
}
