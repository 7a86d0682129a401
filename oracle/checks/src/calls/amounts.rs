//! Calls on 128-bit amounts.

use super::CORNERS;
use crate::amounts::{on, Takes, NAMES, TAKES};
use crate::dice::Dice;
use vocabulary::{Amount, Words};

pub fn next(dice: &mut Dice) -> Words {
    let operation = dice.below(NAMES.len() as u64);
    match TAKES[operation as usize] {
        Takes::Number => crate::amounts::call(operation, &[number(dice)]),
        Takes::NumberNumber => crate::amounts::call(operation, &[number(dice), number(dice)]),
        Takes::Signed => on(operation, signed(dice), &[]),
        Takes::SignedNumber => {
            let amount = signed(dice);
            let n = match u64::try_from(amount.magnitude) {
                Ok(same) if dice.chance(30) => dice.near(same),
                _ => number(dice),
            };
            on(operation, amount, &[n])
        }
        Takes::SignedSigned => {
            let a = signed(dice);
            let b = match dice.below(4) {
                0 => Amount::of(opposite(&a)),
                1 => Amount::of(opposite(&a).saturating_add(1)),
                _ => signed(dice),
            };
            on(operation, a, &b.words())
        }
        Takes::Any => {
            let negative = dice.chance(50);
            on(
                operation,
                Amount {
                    negative,
                    magnitude: unsigned(dice),
                },
                &[],
            )
        }
        Takes::Unsigned => on(operation, Amount::plus(unsigned(dice)), &[]),
        Takes::UnsignedDivisor => {
            let divisor = number(dice).max(1);
            let amount = if dice.chance(50) {
                // an exact multiple, or next to one
                let multiple = u128::from(divisor).wrapping_mul(u128::from(number(dice)));
                multiple.wrapping_add(u128::from(dice.below(3))).wrapping_sub(1)
            } else {
                unsigned(dice)
            };
            on(operation, Amount::plus(amount), &[divisor])
        }
    }
}

fn number(dice: &mut Dice) -> u64 {
    if dice.chance(50) {
        dice.pick(&CORNERS)
    } else {
        dice.any_width()
    }
}

fn unsigned(dice: &mut Dice) -> u128 {
    match dice.below(5) {
        0 => number(dice).into(),
        1 => u128::from(number(dice)) * u128::from(number(dice)),
        2 => (1u128 << dice.below(128))
            .wrapping_add(dice.below(3).into())
            .wrapping_sub(1),
        3 => u128::MAX - u128::from(number(dice)),
        _ => u128::from(number(dice)) << 64 | u128::from(number(dice)),
    }
}

fn signed(dice: &mut Dice) -> Amount {
    let negative = dice.chance(50);
    let amount = Amount {
        negative,
        magnitude: unsigned(dice),
    };
    let beyond = if negative { i128::MIN } else { i128::MAX };
    Amount::of(
        amount
            .as_i128()
            .unwrap_or(if amount.magnitude == 0 { 0 } else { beyond }),
    )
}

/// What brings an i128 to zero, or next to it.
fn opposite(amount: &Amount) -> i128 {
    amount.as_i128().expect("an i128").saturating_neg()
}
