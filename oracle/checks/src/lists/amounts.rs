//! The list of amounts: every operation at the extremes, exact and inexact quotients, and 500 random calls.
//!
//! A line is `sign low high` for an amount, a decimal for a number, 0 or 1 for a yes or no; answered by Rust's own
//! i128 and u128.

use super::List;
use crate::amounts::*;
use crate::dice::Dice;
use vocabulary::{answer, Amount, Original, Words};

const SEED: u64 = 20_261_115;
const RANDOM_CALLS: usize = 500;

const NUMBERS: [u64; 10] = [
    0,
    1,
    2,
    1_000,
    (1 << 32) - 1,
    1 << 32,
    (1 << 32) + 1,
    1 << 63,
    u64::MAX - 1,
    u64::MAX,
];

const FACTORS: [u64; 14] = [
    0,
    1,
    2,
    3,
    999,
    1_000,
    1_001,
    (1 << 32) - 1,
    1 << 32,
    (1 << 32) + 1,
    1 << 63,
    (1 << 63) + 1,
    u64::MAX - 1,
    u64::MAX,
];

const DIVISORS: [u64; 10] = [
    1,
    2,
    3,
    999,
    1_000,
    (1 << 32) - 1,
    1 << 32,
    (1 << 32) + 1,
    1 << 63,
    u64::MAX,
];

const MAX: u128 = u64::MAX as u128;

const SIGNED: [i128; 28] = [
    0,
    1,
    2,
    (1 << 32) - 1,
    1 << 32,
    (1 << 32) + 1,
    1 << 63,
    (1 << 64) - 1,
    1 << 64,
    ((1 << 32) - 1) * ((1 << 64) - 1),
    1 << 96,
    1 << 126,
    i128::MAX - u64::MAX as i128,
    i128::MAX - 1,
    i128::MAX,
    -1,
    -2,
    -(1 << 32) + 1,
    -(1 << 32),
    -(1 << 32) - 1,
    -(1 << 63),
    -(1 << 64) + 1,
    -(1 << 64),
    -(1 << 96),
    i128::MIN + u64::MAX as i128,
    i128::MIN + 2,
    i128::MIN + 1,
    i128::MIN,
];

const UNSIGNED: [u128; 24] = [
    0,
    1,
    2,
    999,
    1_000,
    1_001,
    (1 << 32) - 1,
    1 << 32,
    (1 << 32) + 1,
    1 << 63,
    MAX,
    MAX + 1,
    MAX * MAX,
    MAX * 999,
    MAX * 999 + 1,
    // the first product that saturates, and the last that doesn't
    u128::MAX / 1_000,
    u128::MAX / 1_000 + 1,
    1 << 96,
    1 << 118,
    (1 << 127) - 1,
    1 << 127,
    (1 << 127) + 1,
    u128::MAX - 1,
    u128::MAX,
];

pub fn record(_: &mut dyn Original) -> List {
    let mut list = List::new();
    for call in corners() {
        add(&mut list, &call);
    }
    let mut dice = Dice::new(SEED);
    for _ in 0..RANDOM_CALLS {
        add(&mut list, &crate::calls::amounts::next(&mut dice));
    }
    list
}

fn add(list: &mut List, call: &Words) {
    assert!(in_domain(call), "{call:?}");
    let answer = by_rust(call);
    let [a, b, c] = answer.values;
    let line = match (answer.number, call[0]) {
        (answer::YES, _) => "1".to_string(),
        (answer::NO, _) => "0".to_string(),
        (_, TO_U64 | DIV_CEIL_LOW) => a.to_string(),
        _ => format!("{a} {b} {c}"),
    };
    list.add(call, &line);
}

fn corners() -> Vec<Words> {
    let mut calls = Vec::new();
    for n in NUMBERS {
        calls.push(call(FROM_U64, &[n]));
    }
    for a in SIGNED.map(Amount::of) {
        calls.push(on(IS_NEGATIVE, a, &[]));
        calls.push(on(TO_U64, a, &[]));
        for b in SIGNED.map(Amount::of) {
            calls.push(on(IS_BELOW, a, &b.words()));
            calls.push(on(SATURATING_ADD, a, &b.words()));
        }
        for n in NUMBERS {
            for operation in [IS_ABOVE, LESSER, SATURATING_SUB, DEFICIT] {
                calls.push(on(operation, a, &[n]));
            }
        }
    }
    for magnitude in UNSIGNED {
        for negative in [false, true] {
            calls.push(on(IS_I128, Amount { negative, magnitude }, &[]));
        }
        calls.push(on(TIMES_THOUSAND, Amount::plus(magnitude), &[]));
        for d in DIVISORS {
            calls.push(on(DIV_CEIL_LOW, Amount::plus(magnitude), &[d]));
        }
    }
    for n in FACTORS {
        for m in FACTORS {
            calls.push(call(PRODUCT_PER_THOUSAND, &[n, m]));
        }
    }
    calls.extend(quotients());
    calls
}

/// Exact multiples, one more and one less; quotients at which rounding up carries into the next limb or over 2^64.
fn quotients() -> Vec<Words> {
    let mut calls = Vec::new();
    for d in DIVISORS {
        for q in [1, (1 << 32) - 1, 1 << 32, MAX, MAX + 1] {
            let exact = u128::from(d) * q;
            for a in [exact - 1, exact, exact + 1] {
                calls.push(on(DIV_CEIL_LOW, Amount::plus(a), &[d]));
            }
        }
    }
    calls
}
