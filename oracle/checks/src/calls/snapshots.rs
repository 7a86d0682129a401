//! Calls on snapshots, in between calls on peers; and damaged snapshots.

use super::{peers, CORNERS};
use crate::dice::Dice;
use crate::snapshots::damage::{NAMES, READING};
use crate::snapshots::form::ROWS_AT;
use crate::snapshots::{PLACE, READ, ROW_AT, WALK, WRITE};
use vocabulary::layout::ROW;
use vocabulary::peer::*;
use vocabulary::Words;

/// Bytes that an output or a table is longer than it must be.
const SPARE: [u64; 6] = [0, 0, 1, 120, 121, 300];

/// Operation, 0, its operand, and the seed of what is lent.
pub fn next(dice: &mut Dice, plan: &mut peers::Plan, state: &PeerState, keys: &[Key]) -> Words {
    if dice.chance(50) {
        return plan.next(dice, state, keys);
    }
    let operation = dice.pick(&[WRITE, WRITE, READ, READ, PLACE, ROW_AT, WALK]);
    let operand = match operation {
        PLACE => next_kind(dice),
        ROW_AT => next_place(dice, state.rows.len() as u64),
        WALK => 0,
        _ => dice.pick(&SPARE),
    };
    [operation, 0, operand, dice.roll(), 0, 0, 0, 0]
}

/// Mostly one that there is.
pub fn next_kind(dice: &mut Dice) -> u64 {
    match dice.below(4) {
        0 => dice.pick(&[0, 4, 5, 0xff, 0x100, 0xffff, 0x1_0000, 0x1_0001, 0x1_0003, 0xffff_ffff]),
        _ => dice.between(1, 3),
    }
}

/// Mostly that of a row or of the end; else near one, or anything.
pub fn next_place(dice: &mut Dice, rows: u64) -> u64 {
    let row = ROWS_AT as u64 + ROW as u64 * dice.below(rows + 2);
    match dice.below(8) {
        0 => dice.pick(&CORNERS),
        1 => dice.any_width(),
        2 => dice.below(ROWS_AT as u64 + ROW as u64 * (rows + 2)),
        _ => dice.near(row),
    }
}

/// The sort of damage, 0, what chooses, the seed of what is lent, a second sort in one of four, what chooses, and how much longer the
/// table is.
pub fn next_damage(dice: &mut Dice) -> Words {
    let second = match dice.below(4) {
        0 => 1 + dice.below(READING),
        _ => 0,
    };
    let sort = dice.below(NAMES.len() as u64);
    [
        sort,
        0,
        dice.roll(),
        dice.roll(),
        second,
        dice.roll(),
        dice.pick(&SPARE),
        0,
    ]
}
