//! What the Rust has not: refusals, and what a plain call answers where its signature has no room for one.

use uglezmir::gossip_policy::{
    ByteRateLimitConfig, ChannelUpdateLimiter, ChannelUpdateRateLimitConfig, GossipBanConfig, GossipBanTracker,
    GossipPolicyConfig, GossipPolicyState, GossipViolation,
};
use uglezmir::peer_message_policy::{
    HeldPeerMessagePolicy, PeerMessageAdmission, PeerMessagePolicy, PeerMessagePolicyConfig,
};
use uglezmir::{Refusal, MOST_ROWS};

fn key(number: usize) -> [u8; 33] {
    let mut key = [0; 33];
    key[25..].copy_from_slice(&(number as u64).to_be_bytes());
    key
}

#[test]
fn a_limit_above_1024_is_refused_and_1024_is_not() {
    for limit in [1_025, 50_000, u32::MAX as usize, usize::MAX] {
        let config = PeerMessagePolicyConfig {
            max_tracked_peers: limit,
            ..Default::default()
        };
        let refusal = Some(Refusal::LimitTooLarge);
        assert_eq!(PeerMessagePolicy::new(config).err(), refusal);
        assert_eq!(HeldPeerMessagePolicy::new(config).err(), refusal);
        assert_eq!(PeerMessagePolicy::with_limits(limit, 1, 1).err(), refusal);
        assert_eq!(HeldPeerMessagePolicy::with_limits(limit, 1, 1).err(), refusal);
        let bans = GossipBanConfig::default();
        assert_eq!(bans.build_tracker_with_max_entries(limit).err(), refusal);
        let updates = ChannelUpdateRateLimitConfig::default();
        assert_eq!(updates.build_limiter_with_max_entries(limit).err(), refusal);
    }
    for limit in [0, 1, 1_024] {
        assert!(PeerMessagePolicy::with_limits(limit, 1, 1).is_ok());
        assert!(GossipBanTracker::with_max_entries(GossipBanConfig::default(), limit).is_ok());
        assert!(ChannelUpdateLimiter::with_max_entries(ChannelUpdateRateLimitConfig::default(), limit).is_ok());
    }
}

/// No limit on a peer, and none on the load in flight.
fn unlimited() -> PeerMessagePolicyConfig {
    PeerMessagePolicyConfig {
        peer_message_interval_ms: 0,
        peer_message_burst_bytes: 0,
        max_in_flight_messages: 0,
        ..Default::default()
    }
}

#[test]
fn bytes_in_flight_that_have_no_room_are_told_as_disconnect() {
    let mut policy = PeerMessagePolicy::new(unlimited()).unwrap();
    assert_eq!(policy.admit(&key(1), u64::MAX - 5, 10), PeerMessageAdmission::Allow);
    assert_eq!(policy.try_admit(&key(2), 6, 10), Err(Refusal::NoRoomInFlight));
    assert_eq!(policy.admit(&key(2), 6, 10), PeerMessageAdmission::Disconnect);
    assert_eq!(policy.in_flight(), (1, u64::MAX - 5));
    assert_eq!(policy.try_admit(&key(2), 5, 10), Ok(PeerMessageAdmission::Allow));
    assert_eq!(policy.in_flight(), (2, u64::MAX));
}

#[test]
fn the_held_policy_is_refused_alike() {
    let mut policy = HeldPeerMessagePolicy::new(unlimited()).unwrap();
    assert_eq!(policy.try_admit(&key(1), u64::MAX, 10), Ok(PeerMessageAdmission::Allow));
    assert_eq!(policy.try_admit(&key(1), 1, 10), Err(Refusal::NoRoomInFlight));
    assert_eq!(policy.admit(&key(1), 1, 10), PeerMessageAdmission::Disconnect);
    assert_eq!(policy.in_flight(), (1, u64::MAX));
}

/// A state with a row for each of 1,024 peers.
fn full() -> GossipPolicyState {
    let mut state = GossipPolicyState::default();
    for number in 0..MOST_ROWS {
        assert_eq!(state.try_reserve_outbound_message(&key(number), 1, 0), Ok(0));
    }
    state
}

#[test]
fn an_outbound_row_that_is_not_there_lets_nothing_through() {
    let mut state = full();
    let stranger = key(MOST_ROWS);
    let waits = state.estimate_outbound_message_delay(&stranger, 3_000_000, 0);
    let refusal = Refusal::NoOutboundRow;
    assert_eq!(state.try_allow_outbound_message(&stranger, 1, 0), Err(refusal));
    assert_eq!(state.try_reserve_outbound_message(&stranger, 1, 0), Err(refusal));
    assert_eq!(state.try_refund_outbound_message(&stranger, 1, 0), Err(refusal));
    assert!(!state.allow_outbound_message(&stranger, 1, 0));
    assert_eq!(state.reserve_outbound_message(&stranger, 1, 0), u64::MAX);
    state.refund_outbound_message(&stranger, 1, 0);
    assert_eq!(state.estimate_outbound_message_delay(&stranger, 3_000_000, 0), waits);
    // a known peer goes on, and a place that is freed is used again
    assert_eq!(state.try_allow_outbound_message(&key(7), 1, 0), Ok(true));
    state.remove_outbound_peer(&key(7));
    assert_eq!(state.try_allow_outbound_message(&stranger, 1, 0), Ok(true));
    assert_eq!(state.try_allow_outbound_message(&key(7), 1, 0), Err(refusal));
}

#[test]
fn with_the_peers_limit_off_a_refund_needs_no_row() {
    let mut state = GossipPolicyState::new(GossipPolicyConfig {
        outbound_peer: ByteRateLimitConfig {
            rate_bytes_per_sec: 0,
            burst_bytes: 0,
        },
        ..Default::default()
    });
    for number in 0..MOST_ROWS {
        assert_eq!(state.try_reserve_outbound_message(&key(number), 1, 0), Ok(0));
    }
    assert_eq!(state.try_refund_outbound_message(&key(MOST_ROWS), 1, 0), Ok(()));
    assert_eq!(
        state.try_reserve_outbound_message(&key(MOST_ROWS), 1, 0),
        Err(Refusal::NoOutboundRow)
    );
}

#[test]
fn a_tie_in_eviction_falls_to_the_smallest_key() {
    let mut bans = GossipBanTracker::with_max_entries(GossipBanConfig::default(), 3).unwrap();
    for number in [9, 4, 6, 5] {
        bans.record_violation(&key(number), GossipViolation::PolicyRejectedMessage, 10);
    }
    let scores = [4, 5, 6, 9].map(|number| bans.score(&key(number), 10));
    assert_eq!(scores, [0, 25, 25, 25]);
}

#[test]
fn every_refusal_has_its_number_and_says_it() {
    let all = [
        Refusal::TooShort,
        Refusal::LimitTooLarge,
        Refusal::Unsound,
        Refusal::NoRoomInFlight,
        Refusal::NoOutboundRow,
        Refusal::WrongLayout,
    ];
    for (refusal, number) in all.into_iter().zip(1..) {
        assert_eq!(refusal.number(), number);
        assert!(refusal.to_string().starts_with(&format!("refusal {number}: ")));
    }
    let error: Box<dyn std::error::Error + Send + Sync> = Refusal::Unknown(77).into();
    assert!(error.to_string().starts_with("refusal 77: "));
}
