use super::ByteRateLimitConfig;
use crate::answer::told;
use uglezmir_sys::buckets::{byte, discrete, Amount, ByteLongs};
use uglezmir_sys::numbers::{
    DONE, OP_BYTE_BURST_BYTES, OP_BYTE_HAS_DEBT, OP_BYTE_IS_DISABLED, OP_BYTE_NEW, OP_BYTE_REFUND, OP_BYTE_RESERVE,
    OP_BYTE_TRY_CONSUME, OP_DISCRETE_NEW, OP_DISCRETE_TRY_CONSUME,
};

/// A bucket of bytes that fills with time, and may be driven into debt.
///
/// ```
/// use uglezmir::gossip_policy::{ByteRateLimitConfig, ByteTokenBucket};
///
/// let mut bucket = ByteTokenBucket::new(ByteRateLimitConfig { rate_bytes_per_sec: 3, burst_bytes: 10 });
/// assert_eq!(bucket.reserve(11, 0), 334); // one byte more than there is: a third of a second, in whole milliseconds
/// assert!(bucket.has_debt(333) && !bucket.has_debt(334));
/// assert!(!bucket.try_consume(1, 0));
/// bucket.refund(2, 0);
/// assert!(bucket.try_consume(1, 0));
/// ```
#[derive(Clone, Debug)]
pub struct ByteTokenBucket {
    config: ByteRateLimitConfig,
    available_bytes: i128,
    last_refill_ms: u64,
}

impl ByteTokenBucket {
    /// A full bucket.
    pub fn new(config: ByteRateLimitConfig) -> Self {
        let mut bucket = Self {
            config,
            available_bytes: 0,
            last_refill_ms: 0,
        };
        bucket.call(OP_BYTE_NEW, 0, 0);
        bucket
    }

    /// Takes so many bytes, if they are there.
    pub fn try_consume(&mut self, bytes: u64, now_ms: u64) -> bool {
        told(self.call(OP_BYTE_TRY_CONSUME, bytes, now_ms).0).unwrap_or(false)
    }

    /// Takes so many bytes in any case. Answers how many milliseconds it takes until they would have been there.
    pub fn reserve(&mut self, bytes: u64, now_ms: u64) -> u64 {
        match self.call(OP_BYTE_RESERVE, bytes, now_ms) {
            (DONE, delay_ms) => delay_ms,
            _ => u64::MAX,
        }
    }

    /// Gives so many bytes back.
    pub fn refund(&mut self, bytes: u64, now_ms: u64) {
        self.call(OP_BYTE_REFUND, bytes, now_ms);
    }

    /// Whether less than nothing is there.
    pub fn has_debt(&self, now_ms: u64) -> bool {
        told(self.clone().call(OP_BYTE_HAS_DEBT, 0, now_ms).0).unwrap_or(true)
    }

    /// The bucket's capacity.
    pub fn burst_bytes(&self) -> u64 {
        self.clone().call(OP_BYTE_BURST_BYTES, 0, 0).1
    }

    /// Whether it limits nothing.
    pub fn is_disabled(&self) -> bool {
        told(self.clone().call(OP_BYTE_IS_DISABLED, 0, 0).0).unwrap_or(false)
    }

    /// The call's number and value. A bucket that was made is sound, and no call on it is refused.
    fn call(&mut self, operation: u32, bytes: u64, now_ms: u64) -> (u32, u64) {
        let (mut longs, mut available) = self.words();
        let mut value = 0;
        let number = byte(operation, &mut longs, &mut available, bytes, now_ms, &mut value);
        self.set_words(&longs, &available);
        (number, value)
    }

    /// As a bucket crosses: rate, burst and last refill; what is available.
    pub(super) fn words(&self) -> (ByteLongs, Amount) {
        let longs = [
            self.config.rate_bytes_per_sec,
            self.config.burst_bytes,
            self.last_refill_ms,
        ];
        (longs, amount_words(self.available_bytes))
    }

    /// What a call leaves: it never changes the settings.
    pub(super) fn set_words(&mut self, longs: &ByteLongs, available: &Amount) {
        self.last_refill_ms = longs[2];
        self.available_bytes = amount_of(available);
    }
}

fn amount_words(amount: i128) -> Amount {
    let magnitude = amount.unsigned_abs();
    let limb = |place: u32| (magnitude >> (32 * place)) as u32;
    [(amount < 0).into(), limb(0), limb(1), limb(2), limb(3)]
}

/// A magnitude of 2^127 is the least number's, which is its own negative.
fn amount_of(words: &Amount) -> i128 {
    let [sign, limbs @ ..] = words;
    let magnitude = limbs
        .iter()
        .rev()
        .fold(0, |sum: u128, limb| (sum << 32) | u128::from(*limb)) as i128;
    match sign {
        0 => magnitude,
        _ => magnitude.wrapping_neg(),
    }
}

/// A bucket of tokens, one more each interval.
///
/// ```
/// use uglezmir::gossip_policy::DiscreteTokenBucket;
///
/// let mut bucket = DiscreteTokenBucket::new(10, 2);
/// assert!(bucket.try_consume(59) && bucket.try_consume(59) && bucket.try_consume(60));
/// assert!(!bucket.try_consume(69) && bucket.try_consume(70));
/// ```
#[derive(Clone, Debug, PartialEq, Eq)]
pub struct DiscreteTokenBucket {
    interval_ms: u64,
    capacity: u32,
    available: u32,
    last_refill_ms: u64,
}

impl DiscreteTokenBucket {
    /// A full bucket.
    pub fn new(interval_ms: u64, capacity: u32) -> Self {
        let mut bucket = Self {
            interval_ms,
            capacity,
            available: 0,
            last_refill_ms: 0,
        };
        bucket.call(OP_DISCRETE_NEW, 0);
        bucket
    }

    /// Takes a token, if there is one.
    pub fn try_consume(&mut self, now_ms: u64) -> bool {
        told(self.call(OP_DISCRETE_TRY_CONSUME, now_ms)).unwrap_or(false)
    }

    /// The call's number. A bucket that was made is sound, and no call on it is refused.
    fn call(&mut self, operation: u32, now_ms: u64) -> u32 {
        let mut longs = [self.interval_ms, self.last_refill_ms];
        let mut shorts = [self.capacity, self.available];
        let number = discrete(operation, &mut longs, &mut shorts, now_ms, &mut 0);
        [self.interval_ms, self.last_refill_ms] = longs;
        [self.capacity, self.available] = shorts;
        number
    }
}
