//! Calls on the buckets by themselves, aimed at the bucket as it stands.

use super::{around, CORNERS, SHORT_CORNERS};
use crate::dice::Dice;
use vocabulary::{Amount, BucketOperation as B, Buckets, Words};

const RATES: [u64; 10] = [0, 1, 3, 125, 999, 1_000, 1_001, 1_048_576, u64::MAX - 1, u64::MAX];
const INTERVALS: [u64; 9] = [0, 1, 2, 5, 10, 60_000, (1 << 32) + 1, u64::MAX - 1, u64::MAX];

/// The next call of a list that drives one bucket of each type.
pub fn next(dice: &mut Dice, buckets: &Buckets) -> Words {
    if dice.chance(50) {
        discrete(dice, buckets)
    } else {
        byte(dice, buckets)
    }
}

fn words(operation: B, operands: &[u64]) -> Words {
    crate::amounts::call(operation as u64, operands)
}

fn discrete(dice: &mut Dice, buckets: &Buckets) -> Words {
    let bucket = &buckets.discrete;
    match dice.below(100) {
        0..=3 => words(B::DiscreteNew, &[interval(dice), capacity(dice)]),
        4..=9 => {
            let (interval, capacity) = (interval(dice), capacity(dice));
            let available = match dice.below(3) {
                0 => capacity,
                1 => 0,
                _ => dice.below(capacity + 1),
            };
            let last = time(dice, interval);
            words(B::DiscreteSet, &[interval, capacity, available, last])
        }
        10..=39 => words(
            B::DiscreteRefill,
            &[discrete_time(dice, bucket.last_refill, bucket.interval)],
        ),
        40..=49 => words(B::DiscreteIsFull, &[]),
        _ => words(
            B::DiscreteTryConsume,
            &[discrete_time(dice, bucket.last_refill, bucket.interval)],
        ),
    }
}

fn interval(dice: &mut Dice) -> u64 {
    if dice.chance(80) {
        dice.pick(&INTERVALS)
    } else {
        dice.any_width()
    }
}

fn capacity(dice: &mut Dice) -> u64 {
    if dice.chance(60) {
        dice.between(1, 5)
    } else {
        dice.pick(&SHORT_CORNERS)
    }
}

fn time(dice: &mut Dice, interval: u64) -> u64 {
    match dice.below(4) {
        0 => 0,
        1 => dice.near(interval),
        2 => dice.any_width(),
        _ => dice.pick(&CORNERS),
    }
}

/// Around whole intervals after the last refill, around 2^32 of them, or anything.
fn discrete_time(dice: &mut Dice, last: u64, interval: u64) -> u64 {
    match dice.below(10) {
        0..=3 => {
            let intervals = dice.below(4);
            around(dice, last, interval.saturating_mul(intervals))
        }
        4 | 5 => {
            let intervals = dice.near(1 << 32);
            around(dice, last, interval.saturating_mul(intervals))
        }
        6 => last,
        7 => last.saturating_sub(dice.below(20)),
        8 => dice.any_width(),
        _ => dice.pick(&CORNERS),
    }
}

fn byte(dice: &mut Dice, buckets: &Buckets) -> Words {
    let bucket = &buckets.byte;
    let now = byte_time(dice, bucket.last_refill, bucket.rate);
    let size = size(dice, buckets);
    match dice.below(100) {
        0..=2 => words(B::ByteNew, &[rate(dice), burst(dice)]),
        3..=9 => byte_set(dice),
        10..=19 => words(B::ByteRefill, &[now]),
        20..=39 => words(B::ByteTryConsume, &[size, now]),
        40..=59 => words(B::ByteReserve, &[size, now]),
        60..=74 => words(B::BytePeekDelayAfterRefill, &[size, now]),
        75..=86 => words(B::ByteRefund, &[size, now]),
        87..=95 => words(B::ByteHasDebt, &[now]),
        96 | 97 => words(B::ByteBurstBytes, &[]),
        _ => words(B::ByteIsDisabled, &[]),
    }
}

pub(super) fn rate(dice: &mut Dice) -> u64 {
    if dice.chance(80) {
        dice.pick(&RATES)
    } else {
        dice.any_width()
    }
}

fn burst(dice: &mut Dice) -> u64 {
    match dice.below(5) {
        0 => dice.between(1, 500),
        1 => dice.any_width(),
        _ => dice.pick(&RATES),
    }
}

fn byte_set(dice: &mut Dice) -> Words {
    let (rate, burst) = (rate(dice), burst(dice));
    let [sign, low, high] = Amount::of(amount(dice, burst)).words();
    let last = time(dice, 0);
    words(B::ByteSet, &[rate, burst, sign, low, high, last])
}

/// Full, empty, in small debt, in debt past any number of 64 bits, or at the end of i128.
pub(super) fn amount(dice: &mut Dice, burst: u64) -> i128 {
    match dice.below(8) {
        0 => i128::from(burst),
        1 => i128::from(burst) - 1,
        2 => 0,
        3 => -i128::from(dice.between(1, 400)),
        4 => -i128::from(dice.roll()),
        5 => i128::MIN + i128::from(dice.below(3)),
        6 => i128::MIN + i128::from(dice.any_width()),
        // where 1000 x the deficit passes 2^128
        _ => -340_282_366_920_938_463_463_374_607_431_768_212 + i128::from(dice.below(5)) - 2,
    }
}

fn byte_time(dice: &mut Dice, last: u64, rate: u64) -> u64 {
    match dice.below(10) {
        0..=3 => last.saturating_add(dice.below(30)),
        4 => {
            // about one byte later
            let after = 1_000u64.checked_div(rate).unwrap_or(1);
            around(dice, last, after)
        }
        5 => last,
        6 => last.saturating_sub(dice.below(20)),
        7 => dice.any_width(),
        _ => dice.pick(&CORNERS),
    }
}

/// Around what is available, around the debt, small, or a corner.
fn size(dice: &mut Dice, buckets: &Buckets) -> u64 {
    let available = buckets.byte.available;
    let near = available.magnitude.min(u64::MAX.into()) as u64;
    match dice.below(8) {
        0..=2 => dice.near(near),
        3 => dice.below(20),
        4 => dice.near(buckets.byte.burst),
        5 => dice.any_width(),
        _ => dice.pick(&CORNERS),
    }
}
