//! Bans: settings, rows, and the moments at which one turns.

use crate::calls::peers::time_near;
use crate::calls::{around, CORNERS, SHORT_CORNERS};
use crate::dice::Dice;
use crate::gossip::start::GossipStart;
use vocabulary::gossip::*;
use vocabulary::GossipRow;

pub fn settings(dice: &mut Dice, start: &mut GossipStart, crowded: bool) {
    start.shorts[MOST] = match dice.below(10) {
        0 => dice.pick(&SHORT_CORNERS),
        1 => 100,
        _ => dice.pick(&[1, 25, 26, 50, 75, 76, 100, 101, 125, 200, 300]),
    };
    start.longs[PERIOD] = match dice.below(12) {
        _ if crowded => dice.pick(&[200, 1_000, 600_000]),
        0 => dice.pick(&CORNERS),
        1 | 2 => 600_000,
        3 => 0,
        _ => dice.pick(&[1, 5, 20, 20, 60, 60, 200, 1_000]),
    };
}

/// Few scores and few times, so that rows tie often.
pub fn rows(dice: &mut Dice, start: &GossipStart, count: u64, now: u64) -> Vec<(usize, [u64; 4])> {
    let (threshold, duration) = (start.shorts[MOST], start.longs[PERIOD]);
    let updated = live(dice, now, duration);
    let (ties, banned) = (dice.chance(30), dice.pick(&[0, 20, 50, 90]));
    let row = |place: u64| {
        let score = match dice.below(8) {
            0 | 1 => 25,
            2 => threshold.saturating_sub(dice.pick(&[1, 24, 25, 26, 99, 100, 101])),
            3 => threshold,
            4 => dice.pick(&SHORT_CORNERS),
            5 => dice.near(u64::from(u32::MAX) - 100).min(u32::MAX.into()),
            _ => dice.below(9) * 25,
        };
        let marked = dice.chance(banned);
        let end = match dice.below(6) {
            _ if !marked => 0,
            0 => time_near(dice, now, duration),
            1 | 4 => now.saturating_add(dice.below(5)).saturating_sub(2),
            2 => now.saturating_sub(dice.below(30)),
            _ => now.saturating_add(dice.below(duration.clamp(1, 1_000))),
        };
        let updated = match dice.below(10) {
            _ if ties => updated,
            0..=2 => time_near(dice, now, duration),
            3 => updated,
            _ => live(dice, now, duration),
        };
        (place as usize, [score, marked.into(), end, updated])
    };
    (0..count).map(row).collect()
}

/// A last update that hasn't expired.
fn live(dice: &mut Dice, now: u64, duration: u64) -> u64 {
    now.saturating_sub(dice.below(duration.clamp(1, 50)))
}

/// The end of a ban, where it comes within so many milliseconds.
pub fn end_within(row: &GossipRow, now: u64, most: u64) -> Option<u64> {
    let end = row.numbers[GossipRow::END];
    (row.numbers[GossipRow::MARK] == 1 && end >= now && end - now < most).then_some(end)
}

pub fn moment(dice: &mut Dice, words: &GossipWords, row: &GossipRow) -> u64 {
    let n = &row.numbers;
    match dice.below(10) {
        0..=3 => around(dice, n[GossipRow::UPDATED], words.longs[PERIOD]),
        4..=6 if n[GossipRow::MARK] == 1 => dice.near(n[GossipRow::END]),
        _ => dice.near(n[GossipRow::UPDATED]),
    }
}
