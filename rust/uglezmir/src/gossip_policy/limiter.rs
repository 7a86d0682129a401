use super::ChannelUpdateRateLimitConfig;
use crate::answer::{done, told};
use crate::{table, Key, Refusal, MOST_ROWS, OUTPOINT_KEY, PEER_KEY};
use std::fmt;
use uglezmir_sys::gossip::{limiter, LimiterLongs, LimiterShorts};
use uglezmir_sys::numbers::{
    LIMITER_LONG_INTERVAL_MS, LIMITER_LONG_MAX_ENTRIES, LIMITER_ROW, LIMITER_SHORT_BURST, OP_LIMITER_NEW,
    OP_LIMITER_TRACKED_KEYS, OP_LIMITER_TRY_ACQUIRE, OP_LIMITER_WITH_MAX_ENTRIES,
};

/// A channel's side, as a peer tells of it. In the node:
///
/// ```
/// # struct Pubkey([u8; 33]); struct OutPoint([u8; 36]);
/// type ChannelUpdateLimiterKey = uglezmir::gossip_policy::ChannelUpdateLimiterKey<Pubkey, OutPoint>;
/// let key = ChannelUpdateLimiterKey::new(Pubkey([2; 33]), OutPoint([7; 36]), true);
/// assert!(key.is_node1);
/// ```
#[derive(Clone, Debug, PartialEq, Eq, Hash)]
pub struct ChannelUpdateLimiterKey<Peer, OutPoint> {
    /// Who tells.
    pub peer: Peer,
    /// Of which channel.
    pub channel_outpoint: OutPoint,
    /// Of which side.
    pub is_node1: bool,
}

impl<Peer, OutPoint> ChannelUpdateLimiterKey<Peer, OutPoint> {
    /// The three together.
    pub fn new(peer: Peer, channel_outpoint: OutPoint, is_node1: bool) -> Self {
        Self {
            peer,
            channel_outpoint,
            is_node1,
        }
    }
}

/// Limits the updates of each channel's side, with a [`DiscreteTokenBucket`](super::DiscreteTokenBucket) for each key.
///
/// A new key that finds the table full takes the place of a bucket that is full again; where there is none, it is not let in.
///
/// ```
/// use uglezmir::gossip_policy::{ChannelUpdateLimiter, ChannelUpdateLimiterKey, ChannelUpdateRateLimitConfig};
///
/// let config = ChannelUpdateRateLimitConfig { interval_ms: 10, burst: 1 };
/// let mut limiter = ChannelUpdateLimiter::with_max_entries(config, 1)?;
/// let a = ChannelUpdateLimiterKey::new([2u8; 33], [7u8; 36], false);
/// let b = ChannelUpdateLimiterKey::new([3u8; 33], [7u8; 36], false);
/// assert!(limiter.try_acquire(&a, 100) && !limiter.try_acquire(&b, 109) && limiter.try_acquire(&b, 110));
/// assert_eq!(limiter.tracked_keys(), 1);
/// # Ok::<(), uglezmir::Refusal>(())
/// ```
#[derive(Clone)]
pub struct ChannelUpdateLimiter {
    longs: LimiterLongs,
    shorts: LimiterShorts,
    table: Box<[u8]>,
}

impl ChannelUpdateLimiter {
    /// A limiter of 1,024 keys.
    pub fn new(config: ChannelUpdateRateLimitConfig) -> Self {
        let mut limiter = Self::unmade(&config, MOST_ROWS);
        // Never refused: the limit is 1,024, and the table is sized by it.
        limiter.make(OP_LIMITER_NEW);
        limiter
    }

    /// A limiter of so many keys, 0 counting as 1. Refused with [`Refusal::LimitTooLarge`] above 1,024.
    pub fn with_max_entries(config: ChannelUpdateRateLimitConfig, max_entries: usize) -> Result<Self, Refusal> {
        let mut limiter = Self::unmade(&config, max_entries);
        done(limiter.make(OP_LIMITER_WITH_MAX_ENTRIES))?;
        Ok(limiter)
    }

    /// May this update in?
    pub fn try_acquire<PeerOwner, OutPointOwner>(
        &mut self,
        key: &ChannelUpdateLimiterKey<impl Key<PEER_KEY, PeerOwner>, impl Key<OUTPOINT_KEY, OutPointOwner>>,
        now_ms: u64,
    ) -> bool {
        let (peer, outpoint) = (key.peer.key_bytes(), key.channel_outpoint.key_bytes());
        let side = key.is_node1.into();
        let (longs, shorts, table) = (&mut self.longs, &mut self.shorts, &mut self.table);
        let operation = OP_LIMITER_TRY_ACQUIRE;
        // A limiter that was made is sound, and never refuses.
        let number = limiter(
            operation,
            longs,
            shorts,
            table,
            &peer,
            &outpoint,
            side,
            now_ms,
            &mut [0],
        );
        told(number).unwrap_or(false)
    }

    /// How many keys have a bucket.
    pub fn tracked_keys(&self) -> usize {
        let (mut longs, mut shorts, mut value) = (self.longs, self.shorts, [0]);
        // It looks at the words alone.
        let no_table = &mut [];
        let (peer, outpoint) = ([0; PEER_KEY], [0; OUTPOINT_KEY]);
        let operation = OP_LIMITER_TRACKED_KEYS;
        limiter(
            operation,
            &mut longs,
            &mut shorts,
            no_table,
            &peer,
            &outpoint,
            0,
            0,
            &mut value,
        );
        value[0] as usize
    }

    fn make(&mut self, operation: u32) -> u32 {
        let (longs, shorts, table) = (&mut self.longs, &mut self.shorts, &mut self.table);
        let (peer, outpoint) = ([0; PEER_KEY], [0; OUTPOINT_KEY]);
        limiter(operation, longs, shorts, table, &peer, &outpoint, 0, 0, &mut [0])
    }

    fn unmade(config: &ChannelUpdateRateLimitConfig, max_entries: usize) -> Self {
        Self {
            longs: [config.interval_ms, max_entries as u64, 0],
            shorts: [config.burst],
            table: table(max_entries, LIMITER_ROW),
        }
    }
}

impl fmt::Debug for ChannelUpdateLimiter {
    fn fmt(&self, f: &mut fmt::Formatter<'_>) -> fmt::Result {
        let config = ChannelUpdateRateLimitConfig {
            interval_ms: self.longs[LIMITER_LONG_INTERVAL_MS],
            burst: self.shorts[LIMITER_SHORT_BURST],
        };
        f.debug_struct("ChannelUpdateLimiter")
            .field("config", &config)
            .field("max_entries", &self.longs[LIMITER_LONG_MAX_ENTRIES])
            .field("tracked_keys", &self.tracked_keys())
            .finish_non_exhaustive()
    }
}
