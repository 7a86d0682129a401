//! The list of buckets: one bucket of each type, driven step by step, answered by the unchanged Rust.
//!
//! A line is the answer (1 or 0, a delay or a size in decimal, `-` where the operation answers nothing), then the bucket
//! after: `available last` of the discrete one, `sign low high last` of the byte bucket.

use super::List;
use crate::amounts::call;
use crate::dice::Dice;
use vocabulary::{answer, Amount, Answer, BucketCall, BucketOperation as B, Original, Words};

const SEED: u64 = 20_261_115;
const RANDOM_CALLS: usize = 2_500;

const INTERVALS: [u64; 6] = [0, 1, 10, (1 << 32) - 1, u64::MAX - 1, u64::MAX];
const CAPACITIES: [u64; 4] = [0, 1, 2, u32::MAX as u64];
const RATES: [u64; 6] = [0, 1, 999, 1_000, 1_001, u64::MAX];

pub fn record(original: &mut dyn Original) -> List {
    let mut list = List::new();
    let mut calls = samples();
    calls.extend(discrete_corners());
    calls.extend(byte_corners());
    calls.extend(far_debt());
    for words in &calls {
        add(&mut list, original, words);
    }
    let mut dice = Dice::new(SEED);
    for _ in 0..RANDOM_CALLS {
        let words = crate::calls::buckets::next(&mut dice, &original.buckets());
        add(&mut list, original, &words);
    }
    list
}

fn add(list: &mut List, original: &mut dyn Original, words: &Words) {
    let bucket_call = BucketCall::of(words);
    let answer = original.bucket(&bucket_call);
    let after = crate::show::bucket(bucket_call.operation, &original.buckets());
    list.add(words, &format!("{} {after}", text(bucket_call.operation, &answer)));
}

fn text(operation: B, answer: &Answer) -> String {
    match (answer.number, operation) {
        (answer::YES, _) => "1".into(),
        (answer::NO, _) => "0".into(),
        (_, B::ByteReserve | B::BytePeekDelayAfterRefill | B::ByteBurstBytes) => answer.values[0].to_string(),
        _ => "-".into(),
    }
}

fn on(operation: B, operands: &[u64]) -> Words {
    call(operation as u64, operands)
}

fn byte_set(rate: u64, burst: u64, available: i128, last: u64) -> Words {
    let [sign, low, high] = Amount::of(available).words();
    on(B::ByteSet, &[rate, burst, sign, low, high, last])
}

/// Samples A to F of docs/REFERENCE.md.
fn samples() -> Vec<Words> {
    let consume = |now: u64| on(B::DiscreteTryConsume, &[now]);
    let take = |bytes: u64, now: u64| on(B::ByteTryConsume, &[bytes, now]);
    let reserve = |bytes: u64| on(B::ByteReserve, &[bytes, 0]);
    let mut calls = vec![on(B::DiscreteNew, &[10, 2])];
    calls.extend([59, 59, 60, 69, 70].map(consume));
    calls.push(on(B::DiscreteNew, &[1, 2]));
    calls.extend([1 << 32, 1 << 32, 1 << 32].map(consume));
    calls.push(on(B::DiscreteNew, &[1, 2]));
    calls.push(consume((1 << 32) - 1));
    calls.push(on(B::ByteNew, &[999, 1]));
    calls.extend([take(1, 1), take(1, 2), take(1, 3)]);
    calls.extend([on(B::ByteNew, &[125, 1]), reserve(2_305_843_009_213_693_953)]);
    calls.extend([on(B::ByteNew, &[1, 1]), reserve(u64::MAX)]);
    calls.extend([on(B::ByteNew, &[3, 10]), reserve(11)]);
    calls.extend([on(B::ByteHasDebt, &[333]), on(B::ByteHasDebt, &[334])]);
    calls
}

/// Each interval and capacity, empty and full, at the times where a refill turns.
fn discrete_corners() -> Vec<Words> {
    let mut calls = Vec::new();
    for interval in INTERVALS {
        for capacity in CAPACITIES {
            let many = interval.saturating_mul(1 << 32);
            let times = [
                0,
                1,
                interval.saturating_sub(1),
                interval,
                interval.saturating_mul(2),
                many.saturating_sub(1),
                many,
                many.saturating_add(interval),
                u64::MAX,
            ];
            calls.push(on(B::DiscreteNew, &[interval, capacity]));
            for now in times {
                calls.push(on(B::DiscreteTryConsume, &[now]));
            }
            for now in times {
                calls.push(on(B::DiscreteSet, &[interval, capacity, 0, 0]));
                calls.push(on(B::DiscreteRefill, &[now]));
                calls.push(on(B::DiscreteIsFull, &[]));
            }
        }
    }
    calls
}

/// Each rate and burst: every operation, at the sizes and times where it turns.
fn byte_corners() -> Vec<Words> {
    let mut calls = Vec::new();
    for rate in RATES {
        for burst in RATES {
            calls.push(on(B::ByteNew, &[rate, burst]));
            calls.push(on(B::ByteBurstBytes, &[]));
            calls.push(on(B::ByteIsDisabled, &[]));
            for (bytes, now) in [(0, 0), (burst, 0), (1, 1), (burst, 1_000), (u64::MAX, 1_001)] {
                calls.push(on(B::BytePeekDelayAfterRefill, &[bytes, now]));
                calls.push(on(B::ByteTryConsume, &[bytes, now]));
                calls.push(on(B::ByteReserve, &[bytes, now]));
                calls.push(on(B::ByteHasDebt, &[now]));
            }
            calls.push(on(B::ByteRefund, &[1, 999]));
            calls.push(on(B::ByteRefill, &[u64::MAX / 2]));
            calls.push(on(B::ByteRefund, &[u64::MAX, 0]));
            calls.push(on(B::ByteRefill, &[u64::MAX]));
        }
    }
    calls
}

/// Debts down to -2^127 and the way back; where 1000 x the deficit passes 2^128; where rounding up carries over 2^64.
fn far_debt() -> Vec<Words> {
    let mut calls = Vec::new();
    let saturates = -340_282_366_920_938_463_463_374_607_431_768_212i128;
    let far = [
        i128::MIN,
        i128::MIN + 1,
        i128::MIN + u64::MAX as i128,
        saturates,
        saturates + 1,
    ];
    for rate in [1, 999, 1_000, u64::MAX] {
        for debt in far {
            calls.push(byte_set(rate, 10, debt, 5));
            calls.push(on(B::BytePeekDelayAfterRefill, &[0, 5]));
            calls.push(on(B::BytePeekDelayAfterRefill, &[1, 5]));
            calls.push(on(B::BytePeekDelayAfterRefill, &[u64::MAX, 0]));
            calls.push(on(B::ByteReserve, &[1, 5]));
            calls.push(on(B::ByteReserve, &[u64::MAX, 5]));
            calls.push(on(B::ByteHasDebt, &[5]));
            calls.push(on(B::ByteTryConsume, &[0, 5]));
            calls.push(on(B::ByteRefund, &[u64::MAX, 5]));
            calls.push(on(B::ByteRefill, &[u64::MAX]));
        }
    }
    calls.push(byte_set(999, 1, -18_428_297_329_635_842_063, 0));
    calls.push(on(B::BytePeekDelayAfterRefill, &[1, 0]));
    calls
}
