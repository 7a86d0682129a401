//! The operations on 128-bit amounts, answered by Rust's own i128 and u128.
//!
//! Operands: an amount is three words (sign, low and high 64 bits of the magnitude), a number one word.

pub use vocabulary::amounts::*;
use vocabulary::{Amount, Answer, Words};

/// What an operation takes after its number.
#[derive(Clone, Copy, Debug, PartialEq, Eq)]
pub enum Takes {
    Number,
    Signed,
    SignedSigned,
    SignedNumber,
    Any,
    NumberNumber,
    Unsigned,
    UnsignedDivisor,
}

pub const TAKES: [Takes; 13] = [
    Takes::Number,
    Takes::Signed,
    Takes::SignedSigned,
    Takes::SignedNumber,
    Takes::SignedNumber,
    Takes::SignedSigned,
    Takes::SignedNumber,
    Takes::SignedNumber,
    Takes::Signed,
    Takes::Any,
    Takes::NumberNumber,
    Takes::Unsigned,
    Takes::UnsignedDivisor,
];

/// Whether the operands are such that Rust has an answer.
pub fn in_domain(call: &Words) -> bool {
    if call[0] >= NAMES.len() as u64 {
        return false;
    }
    let first = Amount::from_words(&call[1..4]);
    let signs_are_bits = call[1] < 2;
    match TAKES[call[0] as usize] {
        Takes::Number | Takes::NumberNumber => true,
        Takes::Signed | Takes::SignedNumber => signs_are_bits && first.as_i128().is_some(),
        Takes::SignedSigned => {
            let second = Amount::from_words(&call[4..7]);
            signs_are_bits && call[4] < 2 && first.as_i128().is_some() && second.as_i128().is_some()
        }
        Takes::Any => signs_are_bits,
        Takes::Unsigned => call[1] == 0,
        Takes::UnsignedDivisor => call[1] == 0 && call[4] > 0,
    }
}

/// The answer by Rust's own arithmetic, of a call in the domain.
pub fn by_rust(call: &Words) -> Answer {
    let amount = Amount::from_words(&call[1..4]);
    let a = amount.as_i128().unwrap_or(0);
    let n = i128::from(call[4]);
    match call[0] {
        FROM_U64 => signed(i128::from(call[1])),
        IS_NEGATIVE => Answer::yes_or_no(a < 0),
        IS_BELOW => Answer::yes_or_no(a < Amount::from_words(&call[4..7]).as_i128().unwrap()),
        IS_ABOVE => Answer::yes_or_no(a > n),
        LESSER => signed(a.min(n)),
        SATURATING_ADD => signed(a.saturating_add(Amount::from_words(&call[4..7]).as_i128().unwrap())),
        SATURATING_SUB => signed(a.saturating_sub(n)),
        DEFICIT => signed(n.saturating_sub(a).max(0)),
        TO_U64 => Answer::value(a.clamp(0, i128::from(u64::MAX)) as u64),
        IS_I128 => Answer::yes_or_no(amount.as_i128().is_some()),
        PRODUCT_PER_THOUSAND => unsigned(u128::from(call[1]) * u128::from(call[2]) / 1_000),
        TIMES_THOUSAND => unsigned(amount.magnitude.saturating_mul(1_000)),
        DIV_CEIL_LOW => Answer::value(amount.magnitude.div_ceil(u128::from(call[4])) as u64),
        other => panic!("no amount operation {other}"),
    }
}

fn signed(value: i128) -> Answer {
    Answer::values(Amount::of(value).words())
}

fn unsigned(value: u128) -> Answer {
    Answer::values(Amount::plus(value).words())
}

/// Operation and operands as a record of eight words.
pub fn call(operation: u64, operands: &[u64]) -> Words {
    let mut words = [0; 8];
    words[0] = operation;
    words[1..=operands.len()].copy_from_slice(operands);
    words
}

/// An amount's three words, then further ones.
pub fn on(operation: u64, amount: Amount, more: &[u64]) -> Words {
    let mut operands = amount.words().to_vec();
    operands.extend_from_slice(more);
    call(operation, &operands)
}

#[cfg(test)]
mod tests {
    use super::*;

    #[test]
    fn the_corners_of_i128_are_themselves() {
        for value in [i128::MIN, i128::MIN + 1, -1, 0, 1, i128::MAX] {
            assert_eq!(Amount::of(value).as_i128(), Some(value));
        }
        let minus_zero = Amount {
            negative: true,
            magnitude: 0,
        };
        assert_eq!(minus_zero.as_i128(), None);
        assert_eq!(Amount::plus(1 << 127).as_i128(), None);
    }

    #[test]
    fn rounding_up_may_carry_over_the_low_64_bits() {
        // rate 999, the floor is 2^64 - 1 with a remainder, the delay 0
        let product = 18_428_297_329_635_842_064u128 * 1_000;
        let answer = by_rust(&on(DIV_CEIL_LOW, Amount::plus(product), &[999]));
        assert_eq!(answer, Answer::value(0));
    }
}
