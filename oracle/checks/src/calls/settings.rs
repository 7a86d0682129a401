//! Calls on settings alone.

use super::{CORNERS, SHORT_CORNERS};
use crate::dice::Dice;
use vocabulary::{settings, Words};

pub fn next(dice: &mut Dice) -> Words {
    let operation = dice.below(settings::NAMES.len() as u64);
    let mut long = || dice.pick(&CORNERS);
    let [interval, tracked, bytes, other] = [long(), long(), long(), long()];
    let mut short = || dice.pick(&SHORT_CORNERS);
    [operation, interval, short(), short(), tracked, short(), bytes, other]
}
