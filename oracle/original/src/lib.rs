//! The unchanged Rust of docs/src behind small stand-ins, in the oracle's vocabulary.

mod gossip;

mod fiber {
    pub(crate) use fiber_types::Pubkey;

    include!(concat!(env!("OUT_DIR"), "/modules.rs"));
}

use fiber::gossip_policy::{ByteRateLimitConfig, ByteTokenBucket, DiscreteTokenBucket};
use fiber::peer_message_policy::{PeerMessageAdmission, PeerMessagePolicy, PeerMessagePolicyConfig};
use fiber_types::Pubkey;
use vocabulary::settings::{self, LimitOperation, PeerSettingsOperation, SettingsCall};
use vocabulary::{
    answer, Answer, BucketCall, BucketOperation as B, Buckets, Cause, GossipCall, GossipState, GossipWords, Original,
    PeerCall, PeerOperation as P, PeerState, Settings, Subject, Words,
};

/// Whether the Rust that was built is the one as published, and not an edited copy that RUST_SRC names.
pub const AS_PUBLISHED: bool = fiber::AS_PUBLISHED;

/// One policy, one bucket of each type, and the gossip policy's parts.
pub struct UnchangedRust {
    policy: PeerMessagePolicy,
    discrete: DiscreteTokenBucket,
    byte: ByteTokenBucket,
    gossip: gossip::Gossip,
}

impl Default for UnchangedRust {
    fn default() -> Self {
        Self {
            policy: PeerMessagePolicy::default(),
            discrete: DiscreteTokenBucket::new(0, 0),
            byte: ByteTokenBucket::new(ByteRateLimitConfig {
                rate_bytes_per_sec: 0,
                burst_bytes: 0,
            }),
            gossip: gossip::Gossip::default(),
        }
    }
}

impl UnchangedRust {
    /// Whether the Rust's two orders list exactly its rows: kept state that no row shows.
    pub fn orders_agree(&self) -> bool {
        self.policy.oracle_orders_agree()
    }

    /// The bare call, for timing.
    pub fn admit(&mut self, key: &vocabulary::Key, bytes: u64, now: u64) -> bool {
        self.policy.admit(&Pubkey(*key), bytes, now) == PeerMessageAdmission::Allow
    }
}

impl Original for UnchangedRust {
    fn set_peers(&mut self, state: &PeerState) {
        self.policy = PeerMessagePolicy::oracle_make(state);
    }

    fn peers(&mut self, call: &PeerCall) -> Answer {
        let key = Pubkey(call.key);
        let (bytes, now) = (call.bytes, call.now);
        match call.operation {
            P::Admit => self.admitted(&key, bytes, now),
            P::RecordInvalid => Answer::yes_or_no(self.policy.record_invalid(&key, now)),
            P::IsBanned => Answer::yes_or_no(self.policy.is_banned(&key, now)),
            P::OnDisconnected => {
                self.policy.on_disconnected(&key, now);
                Answer::done()
            }
            P::ReleaseIngress => {
                self.policy.release_ingress(bytes);
                Answer::done()
            }
            P::InFlight => {
                let (messages, bytes) = self.policy.oracle_in_flight();
                Answer::values([messages.into(), bytes, 0])
            }
            // Added by the port: the Rust has no such call, so it is worked out from its state.
            P::HeldTime => {
                let last_used = self.policy.oracle_last_used(&key);
                Answer::value(last_used.map_or(now, |used| used.max(now)))
            }
        }
    }

    fn read_peers(&self, into: &mut PeerState) {
        self.policy.oracle_read(into);
    }

    fn bucket(&mut self, call: &BucketCall) -> Answer {
        let [a, b, ..] = call.operands;
        match call.operation {
            B::DiscreteNew => {
                self.discrete = DiscreteTokenBucket::new(a, b as u32);
                Answer::done()
            }
            B::DiscreteRefill => {
                self.discrete.oracle_refill(a);
                Answer::done()
            }
            B::DiscreteTryConsume => {
                let yes = self.discrete.try_consume(a);
                self.consumed(yes, 1)
            }
            B::DiscreteIsFull => Answer::yes_or_no(self.discrete.oracle_is_full()),
            B::DiscreteSet => {
                let bucket = call.discrete_to_set().expect("numbers within u32");
                self.discrete = DiscreteTokenBucket::oracle_make(&bucket);
                Answer::done()
            }
            B::ByteNew => {
                self.byte = ByteTokenBucket::new(ByteRateLimitConfig {
                    rate_bytes_per_sec: a,
                    burst_bytes: b,
                });
                Answer::done()
            }
            B::ByteRefill => {
                self.byte.oracle_refill(a);
                Answer::done()
            }
            B::ByteTryConsume => {
                let yes = self.byte.try_consume(a, b);
                self.consumed(yes, self.byte.oracle_bytes_short(a))
            }
            B::ByteReserve => Answer::value(self.byte.reserve(a, b)),
            B::BytePeekDelayAfterRefill => Answer::value(self.byte.oracle_peek_delay_after_refill(a, b)),
            B::ByteRefund => {
                self.byte.refund(a, b);
                Answer::done()
            }
            B::ByteHasDebt => Answer::yes_or_no(self.byte.has_debt(a)),
            B::ByteBurstBytes => Answer::value(self.byte.burst_bytes()),
            B::ByteIsDisabled => Answer::yes_or_no(self.byte.is_disabled()),
            B::ByteSet => {
                self.byte = ByteTokenBucket::oracle_make(&call.byte_to_set());
                Answer::done()
            }
        }
    }

    fn buckets(&self) -> Buckets {
        Buckets {
            discrete: self.discrete.oracle_read(),
            byte: self.byte.oracle_read(),
        }
    }

    fn default_settings(&self) -> Settings {
        PeerMessagePolicyConfig::default().oracle_read()
    }

    fn settings(&self, call: &Words) -> (Answer, [u64; 9]) {
        match settings::read(call) {
            SettingsCall::Peers(operation, given) => {
                let (answer, after) = self.peer_settings(operation, &given);
                (answer, after.words())
            }
            SettingsCall::Bytes(operation, given) => {
                let (answer, after) = byte_limit(operation, &given);
                (answer, settings::as_nine(&after))
            }
        }
    }

    fn set_gossip(&mut self, subject: Subject, state: &GossipState) {
        self.gossip.set(subject, state);
    }

    fn make_gossip(&mut self, call: &GossipCall, words: &GossipWords) {
        self.gossip.make(call, words);
    }

    fn gossip(&mut self, call: &GossipCall) -> Answer {
        self.gossip.answer(call)
    }

    fn read_gossip(&self, subject: Subject, into: &mut GossipState) {
        self.gossip.read(subject, into);
    }
}

impl UnchangedRust {
    /// The Rust's answer, and its cause: a bucket that runs short begins a ban where the answer is Ban.
    fn admitted(&mut self, key: &Pubkey, bytes: u64, now: u64) -> Answer {
        let cause = self.policy.oracle_cause(key, bytes, now);
        let number = match self.policy.admit(key, bytes, now) {
            PeerMessageAdmission::Allow => answer::ALLOW,
            PeerMessageAdmission::Disconnect => answer::DISCONNECT,
            PeerMessageAdmission::Ban => answer::BAN,
        };
        match cause {
            Cause::Messages | Cause::Bytes(_) if number == answer::BAN => Answer::admitted(number, Cause::BanBegun),
            _ => Answer::admitted(number, cause),
        }
    }

    fn peer_settings(&self, operation: PeerSettingsOperation, given: &Settings) -> (Answer, Settings) {
        let config = PeerMessagePolicyConfig::oracle_make(given);
        let default = self.default_settings();
        match operation {
            PeerSettingsOperation::Default => (Answer::done(), default),
            // The Rust builds it for its tests alone, so it is worked out here.
            PeerSettingsOperation::WithLimits => {
                let (max_tracked, max_messages, max_bytes) = (given.row_limit(), given.max_messages, given.max_bytes);
                let limited = Settings {
                    max_tracked,
                    max_messages,
                    max_bytes,
                    ..default
                };
                (Answer::done(), limited)
            }
            PeerSettingsOperation::MessageLimitDisabled => (Answer::yes_or_no(config.message_limit_disabled()), *given),
            PeerSettingsOperation::BanDisabled => (Answer::yes_or_no(config.ban_disabled()), *given),
            PeerSettingsOperation::IsUnlimited => (Answer::yes_or_no(config.oracle_is_unlimited()), *given),
        }
    }

    /// By how much a no fell short: the Rust does not say, so it is worked out from the bucket that it leaves.
    fn consumed(&self, yes: bool, short: u64) -> Answer {
        let mut answer = Answer::yes_or_no(yes);
        if !yes {
            answer.values[0] = short;
        }
        answer
    }
}

fn byte_limit(operation: LimitOperation, given: &[u64; 2]) -> (Answer, [u64; 2]) {
    let [rate_bytes_per_sec, burst_bytes] = *given;
    let config = ByteRateLimitConfig {
        rate_bytes_per_sec,
        burst_bytes,
    };
    match operation {
        LimitOperation::DefaultGlobal => (
            Answer::done(),
            ByteRateLimitConfig::oracle_default_global().oracle_read(),
        ),
        LimitOperation::DefaultPeer => (Answer::done(), ByteRateLimitConfig::oracle_default_peer().oracle_read()),
        LimitOperation::IsDisabled => (Answer::yes_or_no(config.is_disabled()), *given),
    }
}
