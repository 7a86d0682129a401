use super::{ChannelUpdateLimiter, GossipBanTracker};
use crate::{Refusal, MOST_ROWS};
use uglezmir_sys::buckets::limit;
use uglezmir_sys::numbers::{OP_LIMIT_IS_DISABLED, YES};

/// The score at which a peer is banned.
pub const DEFAULT_GOSSIP_BAN_THRESHOLD: u32 = 100;
/// How long a ban lasts, in milliseconds, and how long a score is remembered.
pub const DEFAULT_GOSSIP_BAN_DURATION_MS: u64 = 10 * 60 * 1000;
/// How many peers a ban tracker tracks. The Rust's is 50,000.
pub const DEFAULT_GOSSIP_BAN_MAX_TRACKED_PEERS: usize = MOST_ROWS;
/// What all peers together are sent, in bytes a second.
pub const DEFAULT_GOSSIP_GLOBAL_MSG_RATE_BYTES: u64 = 1_024_000;
/// What all peers together are sent at once, in bytes.
pub const DEFAULT_GOSSIP_GLOBAL_MSG_BURST_BYTES: u64 = 2_048_000;
/// What one peer is sent, in bytes a second.
pub const DEFAULT_GOSSIP_PEER_MSG_RATE_BYTES: u64 = 51_200;
/// What one peer is sent at once, in bytes.
pub const DEFAULT_GOSSIP_PEER_MSG_BURST_BYTES: u64 = 102_400;
/// How many messages wait for one peer.
pub const DEFAULT_GOSSIP_OUTBOUND_DELAY_QUEUE_CAPACITY: usize = 1_024;
/// How far apart the updates of a channel's side come in the long run, in milliseconds.
pub const DEFAULT_GOSSIP_CHANNEL_UPDATE_INTERVAL_MS: u64 = 60_000;
/// How many updates of a channel's side come at once.
pub const DEFAULT_GOSSIP_CHANNEL_UPDATE_BURST: u32 = 10;
/// How many channels' sides a limiter tracks. The Rust's is 50,000.
pub const DEFAULT_GOSSIP_CHANNEL_UPDATE_MAX_TRACKED_KEYS: usize = MOST_ROWS;

/// The settings of a [`GossipPolicyState`](super::GossipPolicyState), and of the limiter beside it.
///
/// ```
/// use uglezmir::gossip_policy::{GossipPolicyConfig, GossipPolicyState};
///
/// let mut config = GossipPolicyConfig::default();
/// config.outbound_peer.rate_bytes_per_sec = 0; // no limit on what one peer is sent
/// let state = GossipPolicyState::new(config);
/// assert_eq!(state.outbound_peer_delayed_byte_capacity(), None);
/// assert_eq!(state.outbound_global_delayed_byte_capacity(), Some(2_048_000));
/// ```
#[derive(Clone, Debug, PartialEq, Eq)]
pub struct GossipPolicyConfig {
    /// Bans.
    pub ban: GossipBanConfig,
    /// What all peers together are sent.
    pub outbound_global: ByteRateLimitConfig,
    /// What each peer is sent.
    pub outbound_peer: ByteRateLimitConfig,
    /// How many messages wait for one peer.
    pub outbound_delay_queue_capacity: usize,
    /// Updates of channels.
    pub inbound_channel_update: ChannelUpdateRateLimitConfig,
}

impl Default for GossipPolicyConfig {
    fn default() -> Self {
        Self {
            ban: GossipBanConfig::default(),
            outbound_global: ByteRateLimitConfig {
                rate_bytes_per_sec: DEFAULT_GOSSIP_GLOBAL_MSG_RATE_BYTES,
                burst_bytes: DEFAULT_GOSSIP_GLOBAL_MSG_BURST_BYTES,
            },
            outbound_peer: ByteRateLimitConfig {
                rate_bytes_per_sec: DEFAULT_GOSSIP_PEER_MSG_RATE_BYTES,
                burst_bytes: DEFAULT_GOSSIP_PEER_MSG_BURST_BYTES,
            },
            outbound_delay_queue_capacity: DEFAULT_GOSSIP_OUTBOUND_DELAY_QUEUE_CAPACITY,
            inbound_channel_update: ChannelUpdateRateLimitConfig::default(),
        }
    }
}

/// The settings of bans. Either number 0 turns them off.
#[derive(Clone, Debug, PartialEq, Eq)]
pub struct GossipBanConfig {
    /// The score at which a peer is banned.
    pub threshold: u32,
    /// How long a ban lasts, in milliseconds, and how long a score is remembered.
    pub duration_ms: u64,
}

impl Default for GossipBanConfig {
    fn default() -> Self {
        Self {
            threshold: DEFAULT_GOSSIP_BAN_THRESHOLD,
            duration_ms: DEFAULT_GOSSIP_BAN_DURATION_MS,
        }
    }
}

impl GossipBanConfig {
    /// As [`GossipBanTracker::new`].
    pub fn build_tracker(&self) -> GossipBanTracker {
        GossipBanTracker::new(self.clone())
    }

    /// As [`GossipBanTracker::with_max_entries`].
    pub fn build_tracker_with_max_entries(&self, max_entries: usize) -> Result<GossipBanTracker, Refusal> {
        GossipBanTracker::with_max_entries(self.clone(), max_entries)
    }

    /// Whether no peer is ever banned.
    pub fn is_disabled(&self) -> bool {
        self.threshold == 0 || self.duration_ms == 0
    }
}

/// The settings of a [`ByteTokenBucket`](super::ByteTokenBucket). Either number 0 turns the limit off.
#[derive(Clone, Debug, PartialEq, Eq)]
pub struct ByteRateLimitConfig {
    /// The sustained rate.
    pub rate_bytes_per_sec: u64,
    /// The bucket's capacity.
    pub burst_bytes: u64,
}

impl ByteRateLimitConfig {
    /// Whether there is no limit.
    pub fn is_disabled(&self) -> bool {
        limit(OP_LIMIT_IS_DISABLED, &mut [self.rate_bytes_per_sec, self.burst_bytes]) == YES
    }
}

/// The settings of a [`ChannelUpdateLimiter`]. Either number 0 turns the limit off.
#[derive(Clone, Debug, PartialEq, Eq)]
pub struct ChannelUpdateRateLimitConfig {
    /// How far apart the updates of a channel's side come in the long run, in milliseconds.
    pub interval_ms: u64,
    /// How many updates of a channel's side come at once.
    pub burst: u32,
}

impl Default for ChannelUpdateRateLimitConfig {
    fn default() -> Self {
        Self {
            interval_ms: DEFAULT_GOSSIP_CHANNEL_UPDATE_INTERVAL_MS,
            burst: DEFAULT_GOSSIP_CHANNEL_UPDATE_BURST,
        }
    }
}

impl ChannelUpdateRateLimitConfig {
    /// As [`ChannelUpdateLimiter::new`].
    pub fn build_limiter(&self) -> ChannelUpdateLimiter {
        ChannelUpdateLimiter::new(self.clone())
    }

    /// As [`ChannelUpdateLimiter::with_max_entries`].
    pub fn build_limiter_with_max_entries(&self, max_entries: usize) -> Result<ChannelUpdateLimiter, Refusal> {
        ChannelUpdateLimiter::with_max_entries(self.clone(), max_entries)
    }

    /// Whether there is no limit.
    pub fn is_disabled(&self) -> bool {
        self.interval_ms == 0 || self.burst == 0
    }
}
