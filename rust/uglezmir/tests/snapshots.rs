//! A policy as bytes, and back.

use uglezmir::peer_message_policy::{
    HeldPeerMessagePolicy, PeerMessageAdmission, PeerMessagePolicy, PeerMessagePolicyConfig,
};
use uglezmir::Refusal;

const NOW: u64 = 1_717_986_918_400;

fn config(limit: usize) -> PeerMessagePolicyConfig {
    PeerMessagePolicyConfig {
        peer_message_burst: 3,
        violation_ban_threshold: 2,
        ban_duration_ms: 100,
        max_tracked_peers: limit,
        ..Default::default()
    }
}

/// The n-th of a fixed list of calls; what it answered.
fn call(policy: &mut PeerMessagePolicy, n: u64) -> u64 {
    let (peer, now) = ([(n * 7 % 23) as u8; 33], NOW + n / 4);
    match n % 9 {
        0 => policy.record_invalid(&peer, now).into(),
        1 => policy.is_banned(&peer, now).into(),
        2 => {
            policy.release_ingress(20);
            0
        }
        _ => match policy.admit(&peer, 20 + n, now) {
            PeerMessageAdmission::Allow => 2,
            PeerMessageAdmission::Disconnect => 3,
            PeerMessageAdmission::Ban => 4,
        },
    }
}

#[test]
fn a_policy_that_is_read_back_goes_on_as_it_was() {
    for limit in [0, 1, 16, 1_024] {
        let mut policy = PeerMessagePolicy::new(config(limit)).unwrap();
        for n in 0..2_000 {
            if n % 50 == 0 {
                let bytes = policy.to_bytes();
                policy = PeerMessagePolicy::from_bytes(&bytes).unwrap();
                assert_eq!(policy.to_bytes(), bytes);
            }
            call(&mut policy, n);
        }
        let mut straight = PeerMessagePolicy::new(config(limit)).unwrap();
        let mut again = PeerMessagePolicy::new(config(limit)).unwrap();
        for n in 0..2_000 {
            if n == 777 {
                again = PeerMessagePolicy::from_bytes(&again.to_bytes()).unwrap();
            }
            assert_eq!(call(&mut straight, n), call(&mut again, n));
        }
        assert_eq!(straight.to_bytes(), again.to_bytes());
        assert_eq!(straight.to_bytes(), policy.to_bytes());
        assert_eq!(straight.in_flight(), again.in_flight());
    }
}

#[test]
fn the_layout_is_document_01_s() {
    let mut policy = PeerMessagePolicy::new(config(16)).unwrap();
    let empty = policy.to_bytes();
    assert_eq!(empty.len(), 120);
    assert_eq!(empty[..12], [3, 0, 1, 0, 32, 0, 0, 0, 72, 0, 0, 0]);
    assert_eq!(empty[32..40], 5u64.to_le_bytes());
    policy.admit(&[2u8; 33], 300, NOW);
    let one = policy.to_bytes();
    assert_eq!(one.len(), 241);
    assert_eq!(one[104..120], [1u64.to_le_bytes(), 300u64.to_le_bytes()].concat());
    assert_eq!(one[120..153], [2; 33]);
    assert_eq!(one[233..241], NOW.to_le_bytes());
}

#[test]
fn damaged_bytes_are_refused() {
    let mut policy = PeerMessagePolicy::new(config(16)).unwrap();
    for peer in 1..=3u8 {
        policy.admit(&[peer; 33], 10, NOW);
    }
    let bytes = policy.to_bytes();
    let refused = |bytes: &[u8]| PeerMessagePolicy::from_bytes(bytes).err();
    assert_eq!(refused(&bytes), None);
    assert_eq!(refused(&[]), Some(Refusal::WrongLayout));
    for length in 0..bytes.len() {
        assert_eq!(refused(&bytes[..length]), Some(Refusal::WrongLayout), "cut to {length}");
    }
    assert_eq!(refused(&[&bytes[..], &[0]].concat()), Some(Refusal::WrongLayout));
    for place in 0..32 {
        let mut damaged = bytes.clone();
        damaged[place] ^= 1;
        assert_eq!(refused(&damaged), Some(Refusal::WrongLayout), "byte {place}");
    }
    // the seventh setting is the limit
    let mut damaged = bytes.clone();
    damaged[80..88].copy_from_slice(&1_025u64.to_le_bytes());
    assert_eq!(refused(&damaged), Some(Refusal::LimitTooLarge));
    damaged[80..88].copy_from_slice(&2u64.to_le_bytes());
    assert_eq!(refused(&damaged), Some(Refusal::Unsound));
    // two rows exchanged: keys no longer ascend
    let mut damaged = bytes.clone();
    damaged[120..362].rotate_left(121);
    assert_eq!(refused(&damaged), Some(Refusal::Unsound));
}

#[test]
fn a_held_policy_keeps_its_times() {
    let mut held = HeldPeerMessagePolicy::new(config(16)).unwrap();
    let peer = [2u8; 33];
    for _ in 0..3 {
        assert_eq!(held.admit(&peer, 10, NOW), PeerMessageAdmission::Allow);
    }
    let mut again = HeldPeerMessagePolicy::from_bytes(&held.to_bytes()).unwrap();
    assert_eq!(again.admit(&peer, 10, NOW - 5), PeerMessageAdmission::Disconnect);
    assert_eq!(
        HeldPeerMessagePolicy::from_bytes(&[7]).err(),
        Some(Refusal::WrongLayout)
    );
}
