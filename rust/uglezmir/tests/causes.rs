//! Why a message is let in or not: which limit is named, in which order, and by how much it ran short.

use uglezmir::peer_message_policy::{
    Cause, HeldPeerMessagePolicy, Limit, PeerMessageAdmission, PeerMessagePolicy, PeerMessagePolicyConfig, Shortage,
};
use uglezmir::Refusal;

const PEER: [u8; 33] = [2; 33];
const OTHER: [u8; 33] = [3; 33];

const MESSAGES: Cause = Cause::Short(Shortage::Messages);
const SLOT: Cause = Cause::Short(Shortage::Slot);

const fn bytes(short: u64) -> Cause {
    Cause::Short(Shortage::Bytes(short))
}

const fn ceiling_bytes(short: u64) -> Cause {
    Cause::Short(Shortage::CeilingBytes(short))
}

/// Two messages and 100 bytes a peer, three messages and 150 bytes in flight, no bans.
fn config() -> PeerMessagePolicyConfig {
    PeerMessagePolicyConfig {
        peer_message_interval_ms: 10,
        peer_message_burst: 2,
        peer_message_rate_bytes_per_sec: 1_000,
        peer_message_burst_bytes: 100,
        violation_ban_threshold: 0,
        ban_duration_ms: 100,
        max_tracked_peers: 4,
        max_in_flight_messages: 3,
        max_in_flight_bytes: 150,
    }
}

/// What a fresh policy says to messages of these sizes at these times.
fn said(config: PeerMessagePolicyConfig, messages: &[([u8; 33], u64, u64)]) -> Vec<Cause> {
    let mut policy = PeerMessagePolicy::new(config).unwrap();
    let of = |&(peer, bytes, now): &([u8; 33], u64, u64)| policy.try_admit_explained(&peer, bytes, now).unwrap();
    messages.iter().map(of).collect()
}

#[test]
fn each_limit_is_named_with_what_is_missing() {
    let three = said(config(), &[(PEER, 1, 50), (PEER, 1, 50), (PEER, 1, 50)]);
    assert_eq!(three, [Cause::Allowed, Cause::Allowed, MESSAGES]);
    // of 100 bytes 70 are left, and 10 more come in 10 ms
    let sizes = said(config(), &[(PEER, 30, 50), (PEER, 85, 60), (PEER, 80, 60)]);
    assert_eq!(sizes, [Cause::Allowed, bytes(5), Cause::Allowed]);
    let together = said(config(), &[(PEER, 100, 50), (OTHER, 57, 50), (OTHER, 50, 50)]);
    assert_eq!(together, [Cause::Allowed, ceiling_bytes(7), Cause::Allowed]);
    let slots = [(PEER, 1, 50), (PEER, 1, 50), (OTHER, 1, 50), (OTHER, 1, 50)];
    assert_eq!(said(config(), &slots)[3], SLOT);
}

#[test]
fn messages_come_before_bytes() {
    let both_short = said(config(), &[(PEER, 1, 50), (PEER, 1, 50), (PEER, 1_000, 50)]);
    assert_eq!(both_short[2], MESSAGES);
}

#[test]
fn a_bucket_comes_before_the_ceiling() {
    let one = PeerMessagePolicyConfig {
        max_in_flight_messages: 1,
        ..config()
    };
    // the slot is taken, and the ceiling's bytes are short too
    assert_eq!(said(one, &[(PEER, 90, 50), (PEER, 99, 50)])[1], bytes(89));
    let empty = PeerMessagePolicyConfig {
        peer_message_burst: 1,
        ..one
    };
    assert_eq!(said(empty, &[(PEER, 90, 50), (PEER, 99, 50)])[1], MESSAGES);
    // the other's buckets pass
    assert_eq!(said(one, &[(PEER, 90, 50), (OTHER, 99, 50)])[1], SLOT);
}

#[test]
fn a_slot_comes_before_the_ceiling_s_bytes() {
    let full = [(PEER, 50, 50), (PEER, 50, 50), (OTHER, 50, 50), (OTHER, 50, 50)];
    assert_eq!(said(config(), &full)[3], SLOT);
}

#[test]
fn a_violation_that_begins_a_ban_says_so() {
    let bans = PeerMessagePolicyConfig {
        violation_ban_threshold: 2,
        ..config()
    };
    let causes = said(
        bans,
        &[
            (PEER, 101, 50),
            (PEER, 103, 50),
            (PEER, 1, 50),
            (PEER, 1, 149),
            (PEER, 1, 150),
        ],
    );
    assert_eq!(
        causes,
        [
            bytes(1),
            Cause::BanBegun,
            Cause::LiveBan,
            Cause::LiveBan,
            Cause::Allowed
        ]
    );
}

#[test]
fn a_ceiling_without_room_counts_no_violation() {
    let bans = PeerMessagePolicyConfig {
        violation_ban_threshold: 1,
        max_in_flight_messages: 1,
        ..config()
    };
    let causes = said(bans, &[(PEER, 1, 50), (OTHER, 1, 50), (OTHER, 1, 50), (OTHER, 101, 50)]);
    assert_eq!(causes, [Cause::Allowed, SLOT, SLOT, Cause::BanBegun]);
}

#[test]
fn merged_it_is_the_answer() {
    let causes = [
        Cause::Allowed,
        MESSAGES,
        bytes(5),
        SLOT,
        ceiling_bytes(7),
        Cause::LiveBan,
        Cause::BanBegun,
    ];
    use PeerMessageAdmission::{Allow, Ban, Disconnect};
    let answers = [Allow, Disconnect, Disconnect, Disconnect, Disconnect, Ban, Ban];
    assert_eq!(causes.map(Cause::merge), answers);
    let (ceiling, none) = (Some(Limit::Ceiling), None);
    let limits = [
        none,
        Some(Limit::Messages),
        Some(Limit::Bytes),
        ceiling,
        ceiling,
        none,
        none,
    ];
    assert_eq!(causes.map(Cause::limit), limits);
    let shortages = [
        Shortage::Messages,
        Shortage::Bytes(5),
        Shortage::Slot,
        Shortage::CeilingBytes(7),
    ];
    assert_eq!(shortages.map(Shortage::amount), [1, 5, 1, 7]);
}

#[test]
fn the_held_policy_explains_at_the_held_time() {
    let (mut plain, mut held) = (
        PeerMessagePolicy::new(config()).unwrap(),
        HeldPeerMessagePolicy::new(config()).unwrap(),
    );
    const NOW: u64 = 1_717_986_918_400;
    for _ in 0..2 {
        assert_eq!(plain.try_admit_explained(&PEER, 1, NOW), Ok(Cause::Allowed));
        assert_eq!(held.try_admit_explained(&PEER, 1, NOW), Ok(Cause::Allowed));
    }
    // one interval back
    assert_eq!(plain.try_admit_explained(&PEER, 1, NOW - 10), Ok(Cause::Allowed));
    assert_eq!(held.try_admit_explained(&PEER, 1, NOW - 10), Ok(MESSAGES));
}

#[test]
fn a_refused_message_has_no_cause() {
    let unlimited = PeerMessagePolicyConfig {
        peer_message_rate_bytes_per_sec: 0,
        max_in_flight_bytes: 0,
        ..config()
    };
    let mut policy = PeerMessagePolicy::new(unlimited).unwrap();
    assert_eq!(policy.try_admit_explained(&PEER, u64::MAX, 50), Ok(Cause::Allowed));
    assert_eq!(policy.try_admit_explained(&PEER, 1, 50), Err(Refusal::NoRoomInFlight));
    assert_eq!(policy.in_flight(), (1, u64::MAX));
}
