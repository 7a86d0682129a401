//! Calls on a state that is damaged in one known way (`both_sides`).

use super::CORNERS;
use crate::dice::Dice;
use crate::trace::{Kind, Trace};
use vocabulary::Words;

/// Damage, key, bytes, now, operation, row.
pub fn next_peer(dice: &mut Dice, trace: &Trace) -> Words {
    let damage = dice.below(Kind::PeerRefusals.operations().len() as u64);
    let key = dice.below(trace.keys.len() as u64);
    [
        damage,
        key,
        dice.pick(&CORNERS),
        dice.any_width(),
        dice.below(7),
        dice.roll() >> 32,
        0,
        0,
    ]
}

/// Damage, key, violation, bytes, now, what chooses the operation, and what chooses the place.
pub fn next_gossip(dice: &mut Dice, trace: &Trace) -> Words {
    let damage = dice.below(trace.kind.operations().len() as u64);
    let key = dice.below(trace.gossip.keys.len() as u64);
    [
        damage,
        key,
        dice.below(3),
        dice.pick(&CORNERS),
        dice.any_width(),
        dice.roll() >> 32,
        dice.roll() >> 32,
        0,
    ]
}

/// Operation, operands, and what chooses the damage.
pub fn next_bucket(dice: &mut Dice) -> Words {
    let operation = dice.below(Kind::BucketRefusals.operations().len() as u64);
    [
        operation,
        dice.pick(&CORNERS),
        dice.pick(&CORNERS),
        0,
        dice.pick(&CORNERS),
        dice.pick(&CORNERS),
        dice.any_width(),
        dice.below(5),
    ]
}
