//! Buckets, settings and amounts by themselves (crate `c_buckets`).

use uglezmir_sys::buckets::{self, Amount as AmountWords};
use vocabulary::{Amount, Answer, ByteBucket, DiscreteBucket, Settings};

fn answer(number: u32, value: u64) -> Answer {
    Answer {
        number,
        values: [value, 0, 0],
    }
}

pub fn discrete(operation: u32, bucket: &mut DiscreteBucket, now: u64) -> Answer {
    let mut longs = [bucket.interval, bucket.last_refill];
    let mut shorts = [bucket.capacity, bucket.available];
    let mut value = 0;
    let number = buckets::discrete(operation, &mut longs, &mut shorts, now, &mut value);
    [bucket.interval, bucket.last_refill] = longs;
    [bucket.capacity, bucket.available] = shorts;
    answer(number, value)
}

pub fn byte(operation: u32, bucket: &mut ByteBucket, bytes: u64, now: u64) -> Answer {
    let mut longs = [bucket.rate, bucket.burst, bucket.last_refill];
    let mut available = amount_words(&bucket.available);
    let mut value = 0;
    let number = buckets::byte(operation, &mut longs, &mut available, bytes, now, &mut value);
    [bucket.rate, bucket.burst, bucket.last_refill] = longs;
    bucket.available = amount_of(&available);
    answer(number, value)
}

/// The answer, and the amount that goes with it.
pub fn amount(operation: u32, first: &Amount, second: &Amount, n: u64, m: u64) -> (Answer, Amount) {
    let (first, second) = (amount_words(first), amount_words(second));
    let mut result = [0; 5];
    let mut value = 0;
    let number = buckets::amount(operation, &first, &second, n, m, &mut result, &mut value);
    (answer(number, value), amount_of(&result))
}

pub fn settings(operation: u32, settings: &mut Settings) -> Answer {
    let s = settings;
    let mut longs = [
        s.interval,
        s.rate,
        s.burst_bytes,
        s.ban_duration,
        s.max_tracked,
        s.max_bytes,
    ];
    let mut shorts = [s.burst, s.threshold, s.max_messages];
    let number = buckets::settings(operation, &mut longs, &mut shorts);
    [
        s.interval,
        s.rate,
        s.burst_bytes,
        s.ban_duration,
        s.max_tracked,
        s.max_bytes,
    ] = longs;
    [s.burst, s.threshold, s.max_messages] = shorts;
    Answer::plain(number)
}

/// On a rate and a burst.
pub fn limit(operation: u32, limit: &mut [u64; 2]) -> Answer {
    Answer::plain(buckets::limit(operation, limit))
}

fn amount_words(amount: &Amount) -> AmountWords {
    let limb = |place: u32| (amount.magnitude >> (32 * place)) as u32;
    [amount.negative.into(), limb(0), limb(1), limb(2), limb(3)]
}

/// A sign that is no bit would be lost here, so it is refused.
fn amount_of(words: &AmountWords) -> Amount {
    let [sign, limbs @ ..] = words;
    assert!(*sign < 2, "a sign of {sign}");
    let magnitude = limbs.iter().rev().fold(0, |sum, limb| sum << 32 | u128::from(*limb));
    Amount {
        negative: *sign == 1,
        magnitude,
    }
}
