//! The test body.

/// A module of this name: the examples on one side's types, and a `Side` that makes calls on them.
macro_rules! suite {
    ($side:ident, $($library:ident)::+, made = $made:expr, limiter_key = $limiter_key:ty) => {
        mod $side {
            use crate::call::{outpoint, pubkey, Answer, Call, Settings};
            use $($library)::+::gossip_policy::{
                ByteRateLimitConfig, ByteTokenBucket, ChannelUpdateLimiter, ChannelUpdateRateLimitConfig, DiscreteTokenBucket,
                GossipBanConfig, GossipBanTracker, GossipPolicyConfig, GossipPolicyState, GossipViolation,
                DEFAULT_GOSSIP_BAN_DURATION_MS, DEFAULT_GOSSIP_BAN_THRESHOLD, DEFAULT_GOSSIP_CHANNEL_UPDATE_BURST,
                DEFAULT_GOSSIP_CHANNEL_UPDATE_INTERVAL_MS, DEFAULT_GOSSIP_GLOBAL_MSG_BURST_BYTES,
                DEFAULT_GOSSIP_GLOBAL_MSG_RATE_BYTES, DEFAULT_GOSSIP_OUTBOUND_DELAY_QUEUE_CAPACITY,
                DEFAULT_GOSSIP_PEER_MSG_BURST_BYTES, DEFAULT_GOSSIP_PEER_MSG_RATE_BYTES,
            };
            use $($library)::+::peer_message_policy::{PeerMessageAdmission, PeerMessagePolicy, PeerMessagePolicyConfig};

            type ChannelUpdateLimiterKey = $limiter_key;

            const VIOLATIONS: [GossipViolation; 3] = [
                GossipViolation::InvalidSyncResponse,
                GossipViolation::InvalidBroadcastMessage,
                GossipViolation::PolicyRejectedMessage,
            ];

            // ---- one of everything, driven by calls in plain numbers

            pub struct Side {
                pub policy: PeerMessagePolicy,
                bans: GossipBanTracker,
                limiter: ChannelUpdateLimiter,
                byte: ByteTokenBucket,
                discrete: DiscreteTokenBucket,
                state: GossipPolicyState,
            }

            // what is asked of one side is there on both
            #[allow(dead_code)]
            impl Side {
                pub fn new(s: &Settings) -> Self {
                    let made = $made;
                    let policy = made(PeerMessagePolicy::new(PeerMessagePolicyConfig {
                        peer_message_interval_ms: s.interval_ms,
                        peer_message_burst: s.burst,
                        peer_message_rate_bytes_per_sec: s.rate,
                        peer_message_burst_bytes: s.burst_bytes,
                        violation_ban_threshold: s.threshold,
                        ban_duration_ms: s.ban_duration_ms,
                        max_tracked_peers: s.limit,
                        max_in_flight_messages: s.max_messages,
                        max_in_flight_bytes: s.max_bytes,
                    }));
                    let ban = GossipBanConfig { threshold: s.threshold, duration_ms: s.ban_duration_ms };
                    let made = $made;
                    let bans = made(ban.build_tracker_with_max_entries(s.limit));
                    let inbound_channel_update = ChannelUpdateRateLimitConfig { interval_ms: s.interval_ms, burst: s.burst };
                    let made = $made;
                    let limiter = made(inbound_channel_update.build_limiter_with_max_entries(s.limit));
                    let outbound_global = ByteRateLimitConfig { rate_bytes_per_sec: s.rate, burst_bytes: s.burst_bytes };
                    let outbound_peer = ByteRateLimitConfig {
                        rate_bytes_per_sec: s.peer_rate,
                        burst_bytes: s.peer_burst_bytes,
                    };
                    Self {
                        policy,
                        bans,
                        limiter,
                        byte: ByteTokenBucket::new(outbound_global.clone()),
                        discrete: DiscreteTokenBucket::new(s.interval_ms, s.burst),
                        state: GossipPolicyState::new(GossipPolicyConfig {
                            ban,
                            outbound_global,
                            outbound_peer,
                            outbound_delay_queue_capacity: s.limit,
                            inbound_channel_update,
                        }),
                    }
                }

                pub fn answer(&mut self, call: &Call) -> Answer {
                    let number = self.number(call);
                    let (messages, bytes) = self.policy.in_flight();
                    let besides = match call {
                        Call::Admit { .. } | Call::ReleaseIngress { .. } => [messages.into(), bytes],
                        Call::TryAcquire { .. } => [self.limiter.tracked_keys() as u64, 0],
                        Call::RecordViolation { .. } | Call::IsBanned { .. } | Call::Score { .. } | Call::PruneExpired { .. } => {
                            [self.bans.tracked_peers() as u64, 0]
                        }
                        Call::StateRecordViolation { .. } | Call::StateIsBanned { .. } | Call::PruneBans { .. } => {
                            [self.state.ban_tracker.tracked_peers() as u64, 0]
                        }
                        _ => [0; 2],
                    };
                    Answer { number, besides }
                }

                fn number(&mut self, call: &Call) -> u64 {
                    match *call {
                        Call::Admit { peer, bytes, now } => match self.policy.admit(&pubkey(peer), bytes, now) {
                            PeerMessageAdmission::Allow => 0,
                            PeerMessageAdmission::Disconnect => 1,
                            PeerMessageAdmission::Ban => 2,
                        },
                        Call::RecordInvalid { peer, now } => self.policy.record_invalid(&pubkey(peer), now).into(),
                        Call::PeerIsBanned { peer, now } => self.policy.is_banned(&pubkey(peer), now).into(),
                        Call::OnDisconnected { peer, now } => {
                            self.policy.on_disconnected(&pubkey(peer), now);
                            0
                        }
                        Call::ReleaseIngress { bytes } => {
                            self.policy.release_ingress(bytes);
                            0
                        }
                        Call::RecordViolation { peer, violation, now } => {
                            self.bans.record_violation(&pubkey(peer), VIOLATIONS[violation], now).into()
                        }
                        Call::IsBanned { peer, now } => self.bans.is_banned(&pubkey(peer), now).into(),
                        Call::Score { peer, now } => self.bans.score(&pubkey(peer), now).into(),
                        Call::PruneExpired { now } => {
                            self.bans.prune_expired(now);
                            0
                        }
                        Call::TryAcquire { peer, channel, side, now } => {
                            let key = ChannelUpdateLimiterKey::new(pubkey(peer), outpoint(channel), side);
                            self.limiter.try_acquire(&key, now).into()
                        }
                        Call::ByteTryConsume { bytes, now } => self.byte.try_consume(bytes, now).into(),
                        Call::ByteReserve { bytes, now } => self.byte.reserve(bytes, now),
                        Call::ByteRefund { bytes, now } => {
                            self.byte.refund(bytes, now);
                            0
                        }
                        Call::ByteHasDebt { now } => self.byte.has_debt(now).into(),
                        Call::TryConsume { now } => self.discrete.try_consume(now).into(),
                        Call::StateRecordViolation { peer, violation, now } => {
                            self.state.record_violation(&pubkey(peer), VIOLATIONS[violation], now).into()
                        }
                        Call::StateIsBanned { peer, now } => self.state.is_banned(&pubkey(peer), now).into(),
                        Call::PruneBans { now } => {
                            self.state.prune_bans(now);
                            0
                        }
                        Call::AllowOutbound { peer, bytes, now } => {
                            self.state.allow_outbound_message(&pubkey(peer), bytes, now).into()
                        }
                        Call::EstimateDelay { peer, bytes, now } => {
                            self.state.estimate_outbound_message_delay(&pubkey(peer), bytes, now)
                        }
                        Call::RemoveOutboundPeer { peer } => {
                            self.state.remove_outbound_peer(&pubkey(peer));
                            0
                        }
                        Call::ReserveOutbound { peer, bytes, now } => {
                            self.state.reserve_outbound_message(&pubkey(peer), bytes, now)
                        }
                        Call::RefundOutbound { peer, bytes, now } => {
                            self.state.refund_outbound_message(&pubkey(peer), bytes, now);
                            0
                        }
                        Call::ShouldBypass { peer, bytes, now } => {
                            self.state.should_bypass_oversized_outbound_message(&pubkey(peer), bytes, now).into()
                        }
                        Call::Exceeds { bytes } => {
                            self.state.outbound_message_exceeds_single_message_capacity(bytes).into()
                        }
                    }
                }

                /// The entries among which a violation of this peer would have to make room, as (peer, banned now, score); none where it
                /// needs no room. The tracker itself is left as it is.
                pub fn entries_in_the_way(&self, peer: u64, peers: u64, limit: usize, now: u64) -> Vec<(u64, bool, u32)> {
                    let mut bans = self.bans.clone();
                    if bans.score(&pubkey(peer), now) > 0 || bans.tracked_peers() < limit.max(1) {
                        return Vec::new();
                    }
                    bans.prune_expired(now);
                    if bans.tracked_peers() < limit.max(1) {
                        return Vec::new();
                    }
                    let entry = |peer| match bans.score(&pubkey(peer), now) {
                        0 => None,
                        score => Some((peer, bans.is_banned(&pubkey(peer), now), score)),
                    };
                    (0..peers).filter_map(entry).collect()
                }

                pub fn in_flight(&self) -> (u32, u64) {
                    self.policy.in_flight()
                }
            }

            // ---- examples: docs/REFERENCE.md's samples, and each method that has no call above

            #[test]
            fn sample_a() {
                let mut bucket = DiscreteTokenBucket::new(10, 2);
                assert_eq!([59, 59, 60, 69, 70].map(|now| bucket.try_consume(now)), [true, true, true, false, true]);
            }

            #[test]
            fn sample_b() {
                let mut bucket = DiscreteTokenBucket::new(1, 2);
                assert_eq!([1 << 32; 3].map(|now| bucket.try_consume(now)), [true, true, false]);
                assert!(bucket.try_consume((1 << 32) - 1));
            }

            fn limit(rate_bytes_per_sec: u64, burst_bytes: u64) -> ByteRateLimitConfig {
                ByteRateLimitConfig { rate_bytes_per_sec, burst_bytes }
            }

            #[test]
            fn sample_c() {
                let mut bucket = ByteTokenBucket::new(limit(999, 1));
                assert_eq!([1, 2, 3].map(|now| bucket.try_consume(1, now)), [true, false, false]);
                let made = $made;
                let mut policy = made(PeerMessagePolicy::new(PeerMessagePolicyConfig {
                    peer_message_interval_ms: 0,
                    peer_message_rate_bytes_per_sec: 999,
                    peer_message_burst_bytes: 1,
                    violation_ban_threshold: 0,
                    max_tracked_peers: 1,
                    max_in_flight_messages: 0,
                    ..PeerMessagePolicyConfig::default()
                }));
                let answers = [1, 2, 3].map(|now| policy.admit(&pubkey(2), 1, now));
                use PeerMessageAdmission::{Allow, Disconnect};
                assert_eq!(answers, [Allow, Disconnect, Allow]);
            }

            #[test]
            fn samples_d_e_f() {
                assert_eq!(ByteTokenBucket::new(limit(125, 1)).reserve(2_305_843_009_213_693_953, 0), 0);
                assert_eq!(ByteTokenBucket::new(limit(1, 1)).reserve(u64::MAX, 0), 18_446_744_073_709_549_616);
                let mut bucket = ByteTokenBucket::new(limit(3, 10));
                assert_eq!(bucket.reserve(11, 0), 334);
                assert!(bucket.has_debt(333) && !bucket.has_debt(334));
            }

            #[test]
            fn sample_g() {
                let mut bans = GossipBanTracker::new(GossipBanConfig { threshold: 100, duration_ms: 50 });
                let banned = [7; 4].map(|now| bans.record_violation(&pubkey(2), GossipViolation::PolicyRejectedMessage, now));
                assert_eq!(banned, [false, false, false, true]);
                assert!(bans.is_banned(&pubkey(2), 56) && !bans.is_banned(&pubkey(2), 57));
            }

            #[test]
            fn sample_h() {
                let config = ChannelUpdateRateLimitConfig { interval_ms: 10, burst: 1 };
                let made = $made;
                let mut limiter = made(ChannelUpdateLimiter::with_max_entries(config, 1));
                let key = |peer| ChannelUpdateLimiterKey::new(pubkey(peer), outpoint(1), true);
                assert!(limiter.try_acquire(&key(1), 100) && !limiter.try_acquire(&key(2), 109) && limiter.try_acquire(&key(2), 110));
                assert_eq!(limiter.tracked_keys(), 1);
            }

            #[test]
            fn sample_i() {
                for (second, banned) in [(149, true), (150, false)] {
                    let made = $made;
                    let mut policy = made(PeerMessagePolicy::new(PeerMessagePolicyConfig {
                        violation_ban_threshold: 2,
                        ban_duration_ms: 100,
                        max_tracked_peers: 16,
                        ..PeerMessagePolicyConfig::default()
                    }));
                    assert!(!policy.record_invalid(&pubkey(2), 50));
                    assert_eq!(policy.record_invalid(&pubkey(2), second), banned);
                }
            }

            #[test]
            fn sample_j() {
                // each has one message in its bucket: who has none left was not dropped
                let made = $made;
                let mut policy = made(PeerMessagePolicy::new(PeerMessagePolicyConfig {
                    peer_message_interval_ms: 1_000,
                    peer_message_burst: 1,
                    max_tracked_peers: 2,
                    ..PeerMessagePolicyConfig::default()
                }));
                let [first, second, third] = [3, 6, 9].map(pubkey);
                for peer in [second, first] {
                    assert_eq!(policy.admit(&peer, 1, 5), PeerMessageAdmission::Allow);
                }
                assert_eq!(policy.admit(&third, 1, 6), PeerMessageAdmission::Allow);
                assert_eq!(policy.admit(&second, 1, 6), PeerMessageAdmission::Disconnect);
                assert_eq!(policy.admit(&first, 1, 6), PeerMessageAdmission::Allow);
            }

            #[test]
            fn with_limits_and_in_flight() {
                for limit in [0, 1, 16, 1_024] {
                    let made = $made;
                    let mut policy = made(PeerMessagePolicy::with_limits(limit, 2, 1_000));
                    let answers = [400, 601, 600, 1].map(|bytes| policy.admit(&pubkey(2), bytes, 1_000));
                    use PeerMessageAdmission::{Allow, Disconnect};
                    assert_eq!(answers, [Allow, Disconnect, Allow, Disconnect]);
                    assert_eq!(policy.in_flight(), (2, 1_000));
                    for expected in [(1, 400), (0, 0), (0, 0)] {
                        policy.release_ingress(600);
                        assert_eq!(policy.in_flight(), expected);
                    }
                }
            }

            #[test]
            fn a_default_policy() {
                let mut policy = PeerMessagePolicy::default();
                let answers: Vec<_> = (0..402).map(|_| policy.admit(&pubkey(2), 10, 1_000)).collect();
                assert!(answers[..400].iter().all(|answer| *answer == PeerMessageAdmission::Allow));
                assert_eq!(answers[400..], [PeerMessageAdmission::Disconnect; 2]);
                assert!(!policy.is_banned(&pubkey(2), 1_000));
                policy.on_disconnected(&pubkey(2), 1_000);
                assert_eq!(policy.admit(&pubkey(2), 10, 1_005), PeerMessageAdmission::Allow);
            }

            #[test]
            fn settings() {
                let config = PeerMessagePolicyConfig { max_tracked_peers: 7, ..PeerMessagePolicyConfig::default() };
                let expected = PeerMessagePolicyConfig {
                    peer_message_interval_ms: 5,
                    peer_message_burst: 400,
                    peer_message_rate_bytes_per_sec: 1_048_576,
                    peer_message_burst_bytes: 4_194_304,
                    violation_ban_threshold: 20,
                    ban_duration_ms: 600_000,
                    max_tracked_peers: 7,
                    max_in_flight_messages: 4_096,
                    max_in_flight_bytes: 33_554_432,
                };
                assert_eq!(config, expected);
                assert!(!config.message_limit_disabled() && !config.ban_disabled());
                assert!(PeerMessagePolicyConfig { peer_message_interval_ms: 0, ..config }.message_limit_disabled());
                assert!(PeerMessagePolicyConfig { peer_message_burst: 0, ..config }.message_limit_disabled());
                assert!(PeerMessagePolicyConfig { violation_ban_threshold: 0, ..config }.ban_disabled());
            }

            #[test]
            fn gossip_settings() {
                let config = GossipPolicyConfig::default();
                let expected = GossipPolicyConfig {
                    ban: GossipBanConfig {
                        threshold: DEFAULT_GOSSIP_BAN_THRESHOLD,
                        duration_ms: DEFAULT_GOSSIP_BAN_DURATION_MS,
                    },
                    outbound_global: limit(DEFAULT_GOSSIP_GLOBAL_MSG_RATE_BYTES, DEFAULT_GOSSIP_GLOBAL_MSG_BURST_BYTES),
                    outbound_peer: limit(DEFAULT_GOSSIP_PEER_MSG_RATE_BYTES, DEFAULT_GOSSIP_PEER_MSG_BURST_BYTES),
                    outbound_delay_queue_capacity: DEFAULT_GOSSIP_OUTBOUND_DELAY_QUEUE_CAPACITY,
                    inbound_channel_update: ChannelUpdateRateLimitConfig {
                        interval_ms: DEFAULT_GOSSIP_CHANNEL_UPDATE_INTERVAL_MS,
                        burst: DEFAULT_GOSSIP_CHANNEL_UPDATE_BURST,
                    },
                };
                assert_eq!(config, expected);
                let numbers = (config.ban.threshold, config.ban.duration_ms, config.outbound_delay_queue_capacity);
                assert_eq!(numbers, (100, 600_000, 1_024));
                assert_eq!((config.outbound_global, config.outbound_peer), (limit(1_024_000, 2_048_000), limit(51_200, 102_400)));
                assert_eq!((config.inbound_channel_update.interval_ms, config.inbound_channel_update.burst), (60_000, 10));
                assert_eq!([limit(0, 1), limit(1, 0), limit(1, 1)].map(|limit| limit.is_disabled()), [true, true, false]);
                for (threshold, duration_ms, off) in [(0, 1, true), (1, 0, true), (1, 1, false)] {
                    assert_eq!(GossipBanConfig { threshold, duration_ms }.is_disabled(), off);
                    let (interval_ms, burst) = (duration_ms, threshold);
                    assert_eq!(ChannelUpdateRateLimitConfig { interval_ms, burst }.is_disabled(), off);
                }
            }

            #[test]
            fn a_default_limiter_and_tracker() {
                let mut limiter = ChannelUpdateRateLimitConfig::default().build_limiter();
                let key = ChannelUpdateLimiterKey::new(pubkey(2), outpoint(3), false);
                assert_eq!((0..12).filter(|_| limiter.clone().try_acquire(&key, 60_000)).count(), 12);
                assert_eq!((0..12).filter(|_| limiter.try_acquire(&key, 60_000)).count(), 10);
                let other = ChannelUpdateLimiterKey { is_node1: true, ..key.clone() };
                assert!(other != key && limiter.try_acquire(&other, 60_000));
                let mut bans = GossipBanConfig::default().build_tracker();
                assert!(bans.record_violation(&pubkey(2), GossipViolation::InvalidBroadcastMessage, 0));
                assert_eq!((bans.score(&pubkey(2), 1), bans.tracked_peers()), (100, 1));
                bans.prune_expired(600_000);
                assert_eq!((bans.score(&pubkey(2), 1), bans.tracked_peers()), (0, 0));
            }

            #[test]
            fn a_default_state() {
                let mut state = GossipPolicyState::default();
                assert_eq!(state.outbound_delay_queue_capacity(), 1_024);
                assert_eq!(state.outbound_global_delayed_byte_capacity(), Some(2_048_000));
                assert_eq!(state.outbound_peer_delayed_byte_capacity(), Some(102_400));
                assert!(state.record_violation(&pubkey(2), GossipViolation::InvalidSyncResponse, 5));
                assert!(state.is_banned(&pubkey(2), 5) && state.ban_tracker.is_banned(&pubkey(2), 5));
                state.prune_bans(600_005);
                assert_eq!(state.ban_tracker.tracked_peers(), 0);
                assert!(state.allow_outbound_message(&pubkey(2), 102_400, 5) && !state.allow_outbound_message(&pubkey(2), 103, 6));
                assert_eq!(state.estimate_outbound_message_delay(&pubkey(2), 103, 6), 2);
                assert_eq!(state.reserve_outbound_message(&pubkey(2), 102_400, 5), 2_000);
                assert!(!state.global_outbound.has_debt(5) && state.global_outbound.clone().try_consume(1_843_200, 5));
                assert!(!state.global_outbound.clone().try_consume(1_843_201, 5));
                state.refund_outbound_message(&pubkey(2), 204_800, 5);
                assert_eq!(state.estimate_outbound_message_delay(&pubkey(2), 102_400, 5), 0);
                assert!(!state.outbound_message_exceeds_single_message_capacity(102_400));
                assert!(state.should_bypass_oversized_outbound_message(&pubkey(2), 102_401, 5));
                state.remove_outbound_peer(&pubkey(2));
                let off = GossipPolicyState::new(GossipPolicyConfig {
                    outbound_global: limit(0, 5),
                    outbound_peer: limit(5, 0),
                    ..GossipPolicyConfig::default()
                });
                assert_eq!(off.outbound_global_delayed_byte_capacity(), None);
                assert_eq!(off.outbound_peer_delayed_byte_capacity(), None);
                assert!(off.global_outbound.is_disabled());
                assert_eq!(off.global_outbound.burst_bytes(), 5);
            }

            #[test]
            fn the_public_parts_of_a_state_are_replaced() {
                let mut state = GossipPolicyState::new(GossipPolicyConfig::default());
                let made = $made;
                let tracker_of_one = made(GossipBanTracker::with_max_entries(GossipBanConfig::default(), 1));
                state.ban_tracker = tracker_of_one;
                state.global_outbound = ByteTokenBucket::new(limit(1_000, 50));
                for peer in [pubkey(2), pubkey(5)] {
                    assert!(state.record_violation(&peer, GossipViolation::InvalidSyncResponse, 7));
                }
                assert!(!state.is_banned(&pubkey(2), 7) && state.is_banned(&pubkey(5), 7));
                assert!(state.allow_outbound_message(&pubkey(2), 50, 7) && !state.allow_outbound_message(&pubkey(5), 1, 7));
                assert_eq!(state.estimate_outbound_message_delay(&pubkey(2), 10, 7), 10);
                assert_eq!(state.outbound_global_delayed_byte_capacity(), Some(50));
            }

            #[test]
            fn the_clock_steps_back() {
                let made = $made;
                let mut policy = made(PeerMessagePolicy::new(PeerMessagePolicyConfig {
                    peer_message_burst: 3,
                    max_tracked_peers: 16,
                    ..PeerMessagePolicyConfig::default()
                }));
                let now = 1_717_986_918_400;
                let answers = [now, now, now, now, now - 5].map(|now| policy.admit(&pubkey(2), 100, now));
                use PeerMessageAdmission::{Allow, Disconnect};
                assert_eq!(answers, [Allow, Allow, Allow, Disconnect, Allow]);
            }
        }
    };
}
