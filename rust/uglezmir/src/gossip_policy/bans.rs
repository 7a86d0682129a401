use super::GossipBanConfig;
use crate::answer::{done, told};
use crate::{table, Key, Refusal, MOST_ROWS, PEER_KEY};
use std::fmt;
use uglezmir_sys::gossip::{bans, BanLongs, BanShorts};
use uglezmir_sys::numbers::{
    BAN_LONG_DURATION_MS, BAN_LONG_MAX_ENTRIES, BAN_ROW, BAN_SHORT_THRESHOLD, DONE, OP_BAN_IS_BANNED, OP_BAN_NEW,
    OP_BAN_PRUNE_EXPIRED, OP_BAN_RECORD_VIOLATION, OP_BAN_SCORE, OP_BAN_TRACKED_PEERS, OP_BAN_WITH_MAX_ENTRIES,
    VIOLATION_INVALID_BROADCAST_MESSAGE, VIOLATION_INVALID_SYNC_RESPONSE, VIOLATION_POLICY_REJECTED_MESSAGE,
};

/// What a peer did.
#[derive(Copy, Clone, Debug, PartialEq, Eq)]
pub enum GossipViolation {
    /// 100 points.
    InvalidSyncResponse,
    /// 100 points.
    InvalidBroadcastMessage,
    /// 25 points.
    PolicyRejectedMessage,
}

impl GossipViolation {
    fn number(self) -> u32 {
        match self {
            Self::InvalidSyncResponse => VIOLATION_INVALID_SYNC_RESPONSE,
            Self::InvalidBroadcastMessage => VIOLATION_INVALID_BROADCAST_MESSAGE,
            Self::PolicyRejectedMessage => VIOLATION_POLICY_REJECTED_MESSAGE,
        }
    }
}

/// Scores violations, and bans at the threshold.
///
/// Where the table is full, expired entries go; else the one with the least (banned now, score, last update), and of several the one with the smallest key,
/// where the Rust takes any.
///
/// ```
/// use uglezmir::gossip_policy::{GossipBanConfig, GossipBanTracker, GossipViolation::PolicyRejectedMessage};
///
/// let mut bans = GossipBanTracker::new(GossipBanConfig { threshold: 100, duration_ms: 50 });
/// let peer = [2u8; 33];
/// for _ in 0..3 {
///     assert!(!bans.record_violation(&peer, PolicyRejectedMessage, 7));
/// }
/// assert_eq!(bans.score(&peer, 7), 75);
/// assert!(bans.record_violation(&peer, PolicyRejectedMessage, 7));
/// assert!(bans.is_banned(&peer, 56) && !bans.is_banned(&peer, 57));
/// assert_eq!(bans.tracked_peers(), 0);
/// ```
#[derive(Clone)]
pub struct GossipBanTracker {
    longs: BanLongs,
    shorts: BanShorts,
    pub(super) table: Box<[u8]>,
}

impl GossipBanTracker {
    /// A tracker of 1,024 peers.
    pub fn new(config: GossipBanConfig) -> Self {
        let mut tracker = Self::unmade(&config, MOST_ROWS);
        // Never refused: the limit is 1,024, and the table is sized by it.
        tracker.call(OP_BAN_NEW, &[0; PEER_KEY], 0, 0);
        tracker
    }

    /// A tracker of so many peers, 0 counting as 1. Refused with [`Refusal::LimitTooLarge`] above 1,024.
    pub fn with_max_entries(config: GossipBanConfig, max_entries: usize) -> Result<Self, Refusal> {
        let mut tracker = Self::unmade(&config, max_entries);
        done(tracker.call(OP_BAN_WITH_MAX_ENTRIES, &[0; PEER_KEY], 0, 0).0)?;
        Ok(tracker)
    }

    /// Forgets expired entries.
    pub fn prune_expired(&mut self, now_ms: u64) {
        self.call(OP_BAN_PRUNE_EXPIRED, &[0; PEER_KEY], 0, now_ms);
    }

    /// Counts a violation. Answers whether it banned the peer.
    pub fn record_violation<Owner>(
        &mut self,
        peer: &impl Key<PEER_KEY, Owner>,
        violation: GossipViolation,
        now_ms: u64,
    ) -> bool {
        let (number, _) = self.call(OP_BAN_RECORD_VIOLATION, &peer.key_bytes(), violation.number(), now_ms);
        told(number).unwrap_or(true)
    }

    /// Whether the peer is banned. An entry that has expired is forgotten.
    pub fn is_banned<Owner>(&mut self, peer: &impl Key<PEER_KEY, Owner>, now_ms: u64) -> bool {
        told(self.call(OP_BAN_IS_BANNED, &peer.key_bytes(), 0, now_ms).0).unwrap_or(true)
    }

    /// The peer's score. An entry that has expired is forgotten.
    pub fn score<Owner>(&mut self, peer: &impl Key<PEER_KEY, Owner>, now_ms: u64) -> u32 {
        match self.call(OP_BAN_SCORE, &peer.key_bytes(), 0, now_ms) {
            (DONE, score) => score as u32,
            _ => u32::MAX,
        }
    }

    /// How many peers have an entry, expired ones included.
    pub fn tracked_peers(&self) -> usize {
        let (mut longs, mut shorts, mut value) = (self.longs, self.shorts, [0]);
        // It looks at the words alone.
        let no_table = &mut [];
        bans(
            OP_BAN_TRACKED_PEERS,
            &mut longs,
            &mut shorts,
            no_table,
            &[0; PEER_KEY],
            0,
            0,
            &mut value,
        );
        value[0] as usize
    }

    /// The call's number and value. A tracker that was made is sound, and no call on it is refused.
    fn call(&mut self, operation: u32, peer: &[u8; PEER_KEY], violation: u32, now_ms: u64) -> (u32, u64) {
        let (longs, shorts, table) = (&mut self.longs, &mut self.shorts, &mut self.table);
        let mut value = [0];
        let number = bans(operation, longs, shorts, table, peer, violation, now_ms, &mut value);
        (number, value[0])
    }

    fn unmade(config: &GossipBanConfig, max_entries: usize) -> Self {
        Self {
            longs: [config.duration_ms, max_entries as u64, 0],
            shorts: [config.threshold],
            table: table(max_entries, BAN_ROW),
        }
    }

    pub(super) fn words(&self) -> (BanLongs, BanShorts) {
        (self.longs, self.shorts)
    }
}

impl fmt::Debug for GossipBanTracker {
    fn fmt(&self, f: &mut fmt::Formatter<'_>) -> fmt::Result {
        let config = GossipBanConfig {
            threshold: self.shorts[BAN_SHORT_THRESHOLD],
            duration_ms: self.longs[BAN_LONG_DURATION_MS],
        };
        f.debug_struct("GossipBanTracker")
            .field("config", &config)
            .field("max_entries", &self.longs[BAN_LONG_MAX_ENTRIES])
            .field("tracked_peers", &self.tracked_peers())
            .finish_non_exhaustive()
    }
}
