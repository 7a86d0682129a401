//! The words of a state as they cross the C boundary: nothing in them can be out of its field's range.

use super::MOST_ROWS;
use crate::{Amount, ByteBucket};

/// The tracker and the limiter have the first three longs and the first short alone; the others are 0 there.
#[derive(Clone, Copy, Debug, Default, PartialEq, Eq)]
pub struct GossipWords {
    pub longs: [u64; 10],
    pub shorts: [u32; 6],
}

// The longs by name.

/// The ban's duration, or the limiter's interval.
pub const PERIOD: usize = 0;
/// The most rows as they were given: 0 counts as 1.
pub const LIMIT: usize = 1;
/// The rows of the first table.
pub const ROWS: usize = 2;
pub const GLOBAL_RATE: usize = 3;
pub const GLOBAL_BURST: usize = 4;
pub const GLOBAL_REFILL: usize = 5;
pub const PEER_RATE: usize = 6;
pub const PEER_BURST: usize = 7;
pub const OUTBOUND_ROWS: usize = 8;
pub const QUEUE_CAPACITY: usize = 9;

// The shorts by name; behind the sign come the four limbs of the global bucket's amount, the least first.

/// The ban's threshold, or the limiter's burst.
pub const MOST: usize = 0;
pub const GLOBAL_SIGN: usize = 1;

impl GossipWords {
    /// The most rows that a table holds.
    pub fn row_limit(&self, table: usize) -> u64 {
        match table {
            0 => self.longs[LIMIT].max(1),
            _ => MOST_ROWS,
        }
    }

    /// Whether bans, or the limiter, are off.
    pub fn is_off(&self) -> bool {
        self.longs[PERIOD] == 0 || self.shorts[MOST] == 0
    }

    pub fn peer_limit_is_off(&self) -> bool {
        self.longs[PEER_RATE] == 0 || self.longs[PEER_BURST] == 0
    }

    pub fn global(&self) -> ByteBucket {
        let limbs = self.shorts[GLOBAL_SIGN + 1..].iter().rev();
        ByteBucket {
            rate: self.longs[GLOBAL_RATE],
            burst: self.longs[GLOBAL_BURST],
            available: Amount {
                negative: self.shorts[GLOBAL_SIGN] != 0,
                magnitude: limbs.fold(0, |sum, limb| sum << 32 | u128::from(*limb)),
            },
            last_refill: self.longs[GLOBAL_REFILL],
        }
    }

    pub fn set_global(&mut self, bucket: &ByteBucket) {
        self.longs[GLOBAL_RATE] = bucket.rate;
        self.longs[GLOBAL_BURST] = bucket.burst;
        self.longs[GLOBAL_REFILL] = bucket.last_refill;
        self.shorts[GLOBAL_SIGN] = bucket.available.negative.into();
        for (place, limb) in self.shorts[GLOBAL_SIGN + 1..].iter_mut().enumerate() {
            *limb = (bucket.available.magnitude >> (32 * place)) as u32;
        }
    }
}
