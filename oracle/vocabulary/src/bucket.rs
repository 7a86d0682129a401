//! Both buckets in plain numbers, and the calls on them.

use crate::Words;

#[derive(Clone, Copy, Debug, PartialEq, Eq, Default)]
pub struct DiscreteBucket {
    pub interval: u64,
    pub capacity: u32,
    pub available: u32,
    pub last_refill: u64,
}

/// A sign and a magnitude of 128 bits. Not each is an i128: minus zero and magnitudes past 2^127 can be written too.
#[derive(Clone, Copy, Debug, PartialEq, Eq, Default)]
pub struct Amount {
    pub negative: bool,
    pub magnitude: u128,
}

impl Amount {
    pub fn of(value: i128) -> Self {
        Self {
            negative: value < 0,
            magnitude: value.unsigned_abs(),
        }
    }

    pub fn plus(magnitude: u128) -> Self {
        Self {
            negative: false,
            magnitude,
        }
    }

    /// The i128 that this is, if it is one.
    pub fn as_i128(&self) -> Option<i128> {
        let limit = 1u128 << 127;
        match (self.negative, self.magnitude) {
            (false, m) if m < limit => Some(m as i128),
            (true, m) if 0 < m && m <= limit => Some((m as i128).wrapping_neg()),
            _ => None,
        }
    }

    /// Sign, low and high 64 bits of the magnitude.
    pub fn words(&self) -> [u64; 3] {
        [
            self.negative.into(),
            self.magnitude as u64,
            (self.magnitude >> 64) as u64,
        ]
    }

    pub fn from_words(words: &[u64]) -> Self {
        Self {
            negative: words[0] != 0,
            magnitude: u128::from(words[1]) | u128::from(words[2]) << 64,
        }
    }
}

#[derive(Clone, Copy, Debug, PartialEq, Eq, Default)]
pub struct ByteBucket {
    pub rate: u64,
    pub burst: u64,
    pub available: Amount,
    pub last_refill: u64,
}

/// One bucket of each type: what a list of bucket calls drives.
#[derive(Clone, Copy, Debug, PartialEq, Eq, Default)]
pub struct Buckets {
    pub discrete: DiscreteBucket,
    pub byte: ByteBucket,
}

/// The operations, in the order of their numbers in a recorded list.
#[derive(Clone, Copy, Debug, PartialEq, Eq)]
pub enum BucketOperation {
    DiscreteNew,
    DiscreteRefill,
    DiscreteTryConsume,
    DiscreteIsFull,
    ByteNew,
    ByteRefill,
    ByteTryConsume,
    ByteReserve,
    BytePeekDelayAfterRefill,
    ByteRefund,
    ByteHasDebt,
    ByteBurstBytes,
    ByteIsDisabled,
    DiscreteSet,
    ByteSet,
}

impl BucketOperation {
    pub const ALL: [Self; 15] = [
        Self::DiscreteNew,
        Self::DiscreteRefill,
        Self::DiscreteTryConsume,
        Self::DiscreteIsFull,
        Self::ByteNew,
        Self::ByteRefill,
        Self::ByteTryConsume,
        Self::ByteReserve,
        Self::BytePeekDelayAfterRefill,
        Self::ByteRefund,
        Self::ByteHasDebt,
        Self::ByteBurstBytes,
        Self::ByteIsDisabled,
        Self::DiscreteSet,
        Self::ByteSet,
    ];

    /// In the order of `ALL`.
    pub const NAMES: [&'static str; 15] = [
        "discrete new",
        "discrete refill",
        "discrete try_consume",
        "discrete is_full",
        "byte new",
        "byte refill",
        "byte try_consume",
        "byte reserve",
        "byte peek_delay_after_refill",
        "byte refund",
        "byte has_debt",
        "byte burst_bytes",
        "byte is_disabled",
        "discrete set",
        "byte set",
    ];

    pub fn is_discrete(self) -> bool {
        matches!(
            self,
            Self::DiscreteNew
                | Self::DiscreteRefill
                | Self::DiscreteTryConsume
                | Self::DiscreteIsFull
                | Self::DiscreteSet
        )
    }
}

/// An operation and its operands, as they stand in a record after the operation's number.
#[derive(Clone, Copy, Debug)]
pub struct BucketCall {
    pub operation: BucketOperation,
    pub operands: [u64; 7],
}

impl BucketCall {
    pub fn of(words: &Words) -> Self {
        Self {
            operation: BucketOperation::ALL[words[0] as usize],
            operands: words[1..].try_into().unwrap(),
        }
    }

    /// The bucket that a `set` names; a capacity or a number of tokens past u32 is no bucket.
    pub fn discrete_to_set(&self) -> Option<DiscreteBucket> {
        Some(DiscreteBucket {
            interval: self.operands[0],
            capacity: self.operands[1].try_into().ok()?,
            available: self.operands[2].try_into().ok()?,
            last_refill: self.operands[3],
        })
    }

    pub fn byte_to_set(&self) -> ByteBucket {
        ByteBucket {
            rate: self.operands[0],
            burst: self.operands[1],
            available: Amount::from_words(&self.operands[2..5]),
            last_refill: self.operands[5],
        }
    }
}
