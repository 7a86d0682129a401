//! The ban tracker, the limiter and the gossip state of the unchanged Rust, by the numbers of the C boundary's operations.

use crate::fiber::gossip_policy::{
    ChannelUpdateLimiter, ChannelUpdateLimiterKey, ChannelUpdateRateLimitConfig, GossipBanConfig, GossipBanTracker,
    GossipPolicyConfig, GossipPolicyState, GossipViolation,
};
use fiber_types::Pubkey;
use vocabulary::gossip::LIMIT;
use vocabulary::{Answer, GossipCall, GossipState, GossipWords, Subject};

/// One of each.
pub struct Gossip {
    tracker: GossipBanTracker,
    limiter: ChannelUpdateLimiter,
    state: GossipPolicyState,
}

impl Default for Gossip {
    fn default() -> Self {
        Self {
            tracker: GossipBanConfig::default().build_tracker(),
            limiter: ChannelUpdateRateLimitConfig::default().build_limiter(),
            state: GossipPolicyState::default(),
        }
    }
}

impl Gossip {
    pub fn set(&mut self, subject: Subject, state: &GossipState) {
        match subject {
            Subject::Bans => self.tracker = GossipBanTracker::oracle_make(state),
            Subject::Limiter => self.limiter = ChannelUpdateLimiter::oracle_make(state),
            Subject::Gossip => self.state = GossipPolicyState::oracle_make(state),
        }
    }

    pub fn read(&self, subject: Subject, into: &mut GossipState) {
        match subject {
            Subject::Bans => self.tracker.oracle_read(into),
            Subject::Limiter => self.limiter.oracle_read(into),
            Subject::Gossip => self.state.oracle_read(into),
        }
        into.put_in_order();
    }

    pub fn make(&mut self, call: &GossipCall, words: &GossipWords) {
        let limit = words.longs[LIMIT] as usize;
        match (call.subject, call.operation) {
            (Subject::Bans, 1) => self.tracker = GossipBanConfig::oracle_make(words).build_tracker(),
            (Subject::Bans, 2) => {
                self.tracker = GossipBanConfig::oracle_make(words).build_tracker_with_max_entries(limit);
            }
            (Subject::Limiter, 1) => self.limiter = ChannelUpdateRateLimitConfig::oracle_make(words).build_limiter(),
            (Subject::Limiter, 2) => {
                let config = ChannelUpdateRateLimitConfig::oracle_make(words);
                self.limiter = ChannelUpdateLimiter::with_max_entries(config, limit);
            }
            (Subject::Gossip, 1) => self.state = GossipPolicyState::new(GossipPolicyConfig::oracle_make(words)),
            (Subject::Gossip, 2) => self.state = GossipPolicyState::default(),
            (_, other) => panic!("operation {other} makes nothing"),
        }
    }

    pub fn answer(&mut self, call: &GossipCall) -> Answer {
        match call.subject {
            Subject::Bans => self.answer_bans(call),
            Subject::Limiter => self.answer_limiter(call),
            Subject::Gossip => self.answer_gossip(call),
        }
    }

    fn answer_bans(&mut self, call: &GossipCall) -> Answer {
        let (tracker, peer, now) = (&mut self.tracker, Pubkey(call.peer()), call.now);
        match call.operation {
            3 => {
                let violation = GossipViolation::oracle_make(call.violation);
                Answer::yes_or_no(tracker.record_violation(&peer, violation, now))
            }
            4 => Answer::yes_or_no(tracker.is_banned(&peer, now)),
            5 => Answer::value(tracker.score(&peer, now).into()),
            6 => {
                tracker.prune_expired(now);
                Answer::done()
            }
            7 => Answer::value(tracker.tracked_peers() as u64),
            other => panic!("no call {other} on bans"),
        }
    }

    fn answer_limiter(&mut self, call: &GossipCall) -> Answer {
        match call.operation {
            3 => {
                let key = ChannelUpdateLimiterKey::oracle_make(&call.key);
                Answer::yes_or_no(self.limiter.try_acquire(&key, call.now))
            }
            4 => Answer::value(self.limiter.oracle_tracked_keys() as u64),
            other => panic!("no call {other} on the limiter"),
        }
    }

    fn answer_gossip(&mut self, call: &GossipCall) -> Answer {
        let (state, peer) = (&mut self.state, Pubkey(call.peer()));
        let (bytes, now) = (call.bytes, call.now);
        match call.operation {
            3 => {
                let violation = GossipViolation::oracle_make(call.violation);
                Answer::yes_or_no(state.record_violation(&peer, violation, now))
            }
            4 => Answer::yes_or_no(state.is_banned(&peer, now)),
            5 => {
                state.prune_bans(now);
                Answer::done()
            }
            6 => Answer::yes_or_no(state.allow_outbound_message(&peer, bytes, now)),
            7 => Answer::value(state.estimate_outbound_message_delay(&peer, bytes, now)),
            8 => {
                state.remove_outbound_peer(&peer);
                Answer::done()
            }
            9 => Answer::value(state.reserve_outbound_message(&peer, bytes, now)),
            10 => {
                state.refund_outbound_message(&peer, bytes, now);
                Answer::done()
            }
            11 => Answer::yes_or_no(state.should_bypass_oversized_outbound_message(&peer, bytes, now)),
            12 => Answer::yes_or_no(state.outbound_message_exceeds_single_message_capacity(bytes)),
            13 => Answer::value(state.outbound_delay_queue_capacity() as u64),
            14 => capacity(state.outbound_global_delayed_byte_capacity()),
            15 => capacity(state.outbound_peer_delayed_byte_capacity()),
            other => panic!("no call {other} on the gossip state"),
        }
    }
}

/// No where there is none: the bytes are unlimited.
fn capacity(bytes: Option<u64>) -> Answer {
    bytes.map_or(Answer::yes_or_no(false), Answer::value)
}
