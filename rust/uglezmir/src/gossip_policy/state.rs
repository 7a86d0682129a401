use super::{ByteRateLimitConfig, ByteTokenBucket, GossipBanTracker, GossipPolicyConfig, GossipViolation};
use crate::answer::{done, told};
use crate::{table, Key, Refusal, MOST_ROWS, PEER_KEY};
use std::fmt;
use uglezmir_sys::gossip::{ask, gossip, GossipLongs, GossipShorts, Question};
use uglezmir_sys::numbers::{
    DONE, FIRST_ANSWER, GOSSIP_LONG_GLOBAL_LAST_REFILL_MS, GOSSIP_LONG_OUTBOUND_ROWS, GOSSIP_SHORT_GLOBAL_AVAILABLE,
    OP_GOSSIP_ALLOW, OP_GOSSIP_NEW, OP_GOSSIP_REFUND, OP_GOSSIP_REMOVE_PEER, OP_GOSSIP_RESERVE, OUTBOUND_ROW,
};

/// The bans, and what may be sent to each peer and to all together.
///
/// As in the Rust, `ban_tracker` and `global_outbound` are public. The peers' own buckets, a map there that grows without bound, are a table of 1,024
/// rows here, and private: a peer that finds it full is refused until another is [removed](Self::remove_outbound_peer).
///
/// ```
/// use uglezmir::gossip_policy::{ByteRateLimitConfig, GossipPolicyConfig, GossipPolicyState};
///
/// let mut state = GossipPolicyState::new(GossipPolicyConfig {
///     outbound_peer: ByteRateLimitConfig { rate_bytes_per_sec: 1_000, burst_bytes: 100 },
///     ..Default::default()
/// });
/// let peer = [2u8; 33];
/// assert!(state.allow_outbound_message(&peer, 100, 0) && !state.allow_outbound_message(&peer, 1, 0));
/// assert_eq!(state.estimate_outbound_message_delay(&peer, 20, 0), 20);
/// assert_eq!(state.reserve_outbound_message(&peer, 20, 0), 20);
/// state.refund_outbound_message(&peer, 20, 0);
/// assert!(state.outbound_message_exceeds_single_message_capacity(101));
/// assert!(state.should_bypass_oversized_outbound_message(&peer, 101, 0)); // too large ever to fit, and nobody is in debt
/// ```
#[derive(Clone)]
pub struct GossipPolicyState {
    /// The bans.
    pub ban_tracker: GossipBanTracker,
    /// What all peers together may be sent.
    pub global_outbound: ByteTokenBucket,
    outbound_table: Box<[u8]>,
    outbound_rows: u64,
    outbound_delay_queue_capacity: usize,
    peer_outbound_config: ByteRateLimitConfig,
}

impl GossipPolicyState {
    /// A state without a peer. As in the Rust it is never refused: no setting is a limit on rows.
    pub fn new(config: GossipPolicyConfig) -> Self {
        let mut state = Self {
            ban_tracker: config.ban.build_tracker(),
            global_outbound: ByteTokenBucket::new(config.outbound_global),
            outbound_table: table(MOST_ROWS, OUTBOUND_ROW),
            outbound_rows: 0,
            outbound_delay_queue_capacity: config.outbound_delay_queue_capacity,
            peer_outbound_config: config.outbound_peer,
        };
        state.call(OP_GOSSIP_NEW, &[0; PEER_KEY], 0, 0);
        state
    }

    /// As [`GossipBanTracker::record_violation`].
    pub fn record_violation<Owner>(
        &mut self,
        peer: &impl Key<PEER_KEY, Owner>,
        violation: GossipViolation,
        now_ms: u64,
    ) -> bool {
        self.ban_tracker.record_violation(peer, violation, now_ms)
    }

    /// As [`GossipBanTracker::is_banned`].
    pub fn is_banned<Owner>(&mut self, peer: &impl Key<PEER_KEY, Owner>, now_ms: u64) -> bool {
        self.ban_tracker.is_banned(peer, now_ms)
    }

    /// As [`GossipBanTracker::prune_expired`].
    pub fn prune_bans(&mut self, now_ms: u64) {
        self.ban_tracker.prune_expired(now_ms);
    }

    /// May a message be sent to the peer? It is charged then; a no changes nothing.
    ///
    /// Where [`try_allow_outbound_message`](Self::try_allow_outbound_message) is refused, the answer is `false`.
    pub fn allow_outbound_message<Owner>(&mut self, peer: &impl Key<PEER_KEY, Owner>, bytes: u64, now_ms: u64) -> bool {
        self.try_allow_outbound_message(peer, bytes, now_ms).unwrap_or(false)
    }

    /// As [`allow_outbound_message`](Self::allow_outbound_message), with its refusal: [`Refusal::NoOutboundRow`] where the peer would get a
    /// row, and 1,024 exist.
    pub fn try_allow_outbound_message<Owner>(
        &mut self,
        peer: &impl Key<PEER_KEY, Owner>,
        bytes: u64,
        now_ms: u64,
    ) -> Result<bool, Refusal> {
        told(self.call(OP_GOSSIP_ALLOW, &peer.key_bytes(), bytes, now_ms).0)
    }

    /// How many milliseconds a message would wait. A peer without a row counts as one whose bucket is full.
    pub fn estimate_outbound_message_delay<Owner>(
        &self,
        peer: &impl Key<PEER_KEY, Owner>,
        bytes: u64,
        now_ms: u64,
    ) -> u64 {
        match self.asked(Question::EstimateDelay, &peer.key_bytes(), bytes, now_ms) {
            (DONE, delay_ms) => delay_ms,
            _ => u64::MAX,
        }
    }

    /// Forgets the peer's bucket.
    pub fn remove_outbound_peer<Owner>(&mut self, peer: &impl Key<PEER_KEY, Owner>) {
        self.call(OP_GOSSIP_REMOVE_PEER, &peer.key_bytes(), 0, 0);
    }

    /// Charges a message in any case. Answers how many milliseconds it must wait.
    ///
    /// Where [`try_reserve_outbound_message`](Self::try_reserve_outbound_message) is refused, the answer is `u64::MAX`.
    pub fn reserve_outbound_message<Owner>(
        &mut self,
        peer: &impl Key<PEER_KEY, Owner>,
        bytes: u64,
        now_ms: u64,
    ) -> u64 {
        self.try_reserve_outbound_message(peer, bytes, now_ms)
            .unwrap_or(u64::MAX)
    }

    /// As [`reserve_outbound_message`](Self::reserve_outbound_message), with its refusal: [`Refusal::NoOutboundRow`] where the peer would get
    /// a row, and 1,024 exist.
    ///
    /// ```
    /// use uglezmir::gossip_policy::GossipPolicyState;
    /// use uglezmir::Refusal;
    ///
    /// let mut state = GossipPolicyState::default();
    /// let key = |number: u16| -> [u8; 33] { std::array::from_fn(|at| number.to_be_bytes()[at % 2]) };
    /// for number in 0..1_024 {
    ///     assert_eq!(state.try_reserve_outbound_message(&key(number), 1, 0), Ok(0));
    /// }
    /// assert_eq!(state.try_reserve_outbound_message(&key(1_024), 1, 0), Err(Refusal::NoOutboundRow));
    /// assert_eq!(state.reserve_outbound_message(&key(1_024), 1, 0), u64::MAX);
    /// assert!(!state.allow_outbound_message(&key(1_024), 1, 0));
    /// state.remove_outbound_peer(&key(0));
    /// assert!(state.allow_outbound_message(&key(1_024), 1, 0));
    /// ```
    pub fn try_reserve_outbound_message<Owner>(
        &mut self,
        peer: &impl Key<PEER_KEY, Owner>,
        bytes: u64,
        now_ms: u64,
    ) -> Result<u64, Refusal> {
        let (number, delay_ms) = self.call(OP_GOSSIP_RESERVE, &peer.key_bytes(), bytes, now_ms);
        done(number)?;
        Ok(delay_ms)
    }

    /// Gives a message's bytes back.
    ///
    /// Where [`try_refund_outbound_message`](Self::try_refund_outbound_message) is refused, nothing is given back, to nobody.
    pub fn refund_outbound_message<Owner>(&mut self, peer: &impl Key<PEER_KEY, Owner>, bytes: u64, now_ms: u64) {
        let _ = self.try_refund_outbound_message(peer, bytes, now_ms);
    }

    /// As [`refund_outbound_message`](Self::refund_outbound_message), with its refusal: [`Refusal::NoOutboundRow`] where the peer would get a
    /// row, and 1,024 exist.
    pub fn try_refund_outbound_message<Owner>(
        &mut self,
        peer: &impl Key<PEER_KEY, Owner>,
        bytes: u64,
        now_ms: u64,
    ) -> Result<(), Refusal> {
        done(self.call(OP_GOSSIP_REFUND, &peer.key_bytes(), bytes, now_ms).0)
    }

    /// Whether a message that is too large for a bucket may be sent all the same: nobody is in debt.
    pub fn should_bypass_oversized_outbound_message<Owner>(
        &self,
        peer: &impl Key<PEER_KEY, Owner>,
        bytes: u64,
        now_ms: u64,
    ) -> bool {
        told(self.asked(Question::ShouldBypass, &peer.key_bytes(), bytes, now_ms).0).unwrap_or(false)
    }

    /// Whether a message is larger than a bucket's capacity.
    pub fn outbound_message_exceeds_single_message_capacity(&self, bytes: u64) -> bool {
        told(self.asked(Question::Exceeds, &[0; PEER_KEY], bytes, 0).0).unwrap_or(true)
    }

    /// How many messages wait for one peer.
    pub fn outbound_delay_queue_capacity(&self) -> usize {
        self.asked(Question::QueueCapacity, &[0; PEER_KEY], 0, 0).1 as usize
    }

    /// How many bytes wait for all peers together; `None` where that is not limited.
    pub fn outbound_global_delayed_byte_capacity(&self) -> Option<u64> {
        self.capacity(Question::GlobalCapacity)
    }

    /// How many bytes wait for one peer; `None` where that is not limited.
    pub fn outbound_peer_delayed_byte_capacity(&self) -> Option<u64> {
        self.capacity(Question::PeerCapacity)
    }

    fn capacity(&self, question: Question) -> Option<u64> {
        match self.asked(question, &[0; PEER_KEY], 0, 0) {
            (DONE, bytes) => Some(bytes),
            _ => None,
        }
    }

    fn asked(&self, question: Question, peer: &[u8; PEER_KEY], bytes: u64, now_ms: u64) -> (u32, u64) {
        let (longs, shorts) = self.words();
        ask(question, longs, shorts, &self.outbound_table, peer, bytes, now_ms)
    }

    /// The number and value of a call on the outbound half. A state that was made is sound, so that 5 is its one refusal.
    fn call(&mut self, operation: u32, peer: &[u8; PEER_KEY], bytes: u64, now_ms: u64) -> (u32, u64) {
        let (mut longs, mut shorts) = self.words();
        let (bans, outbound) = (&mut self.ban_tracker.table, &mut self.outbound_table);
        let mut value = [0];
        let number = gossip(
            operation,
            &mut longs,
            &mut shorts,
            bans,
            outbound,
            peer,
            0,
            bytes,
            now_ms,
            &mut value,
        );
        if number >= FIRST_ANSWER {
            self.set_words(&longs, &shorts);
        }
        (number, value[0])
    }

    /// As a state crosses.
    fn words(&self) -> (GossipLongs, GossipShorts) {
        let ([ban_duration, ban_limit, ban_rows], [threshold]) = self.ban_tracker.words();
        let ([rate, burst, last_refill], [sign, l0, l1, l2, l3]) = self.global_outbound.words();
        let peer = &self.peer_outbound_config;
        let longs = [
            ban_duration,
            ban_limit,
            ban_rows,
            rate,
            burst,
            last_refill,
            peer.rate_bytes_per_sec,
            peer.burst_bytes,
            self.outbound_rows,
            self.outbound_delay_queue_capacity as u64,
        ];
        (longs, [threshold, sign, l0, l1, l2, l3])
    }

    /// What such a call leaves: the global bucket and the count of rows.
    fn set_words(&mut self, longs: &GossipLongs, shorts: &GossipShorts) {
        let bucket = [0, 0, longs[GOSSIP_LONG_GLOBAL_LAST_REFILL_MS]];
        let available = std::array::from_fn(|at| shorts[GOSSIP_SHORT_GLOBAL_AVAILABLE + at]);
        self.global_outbound.set_words(&bucket, &available);
        self.outbound_rows = longs[GOSSIP_LONG_OUTBOUND_ROWS];
    }
}

impl Default for GossipPolicyState {
    fn default() -> Self {
        Self::new(GossipPolicyConfig::default())
    }
}

impl fmt::Debug for GossipPolicyState {
    fn fmt(&self, f: &mut fmt::Formatter<'_>) -> fmt::Result {
        f.debug_struct("GossipPolicyState")
            .field("ban_tracker", &self.ban_tracker)
            .field("global_outbound", &self.global_outbound)
            .field("outbound_peers", &self.outbound_rows)
            .field("outbound_delay_queue_capacity", &self.outbound_delay_queue_capacity)
            .field("peer_outbound_config", &self.peer_outbound_config)
            .finish_non_exhaustive()
    }
}
