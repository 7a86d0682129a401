//! What every type is: `Send` and `Sync`, shown by `Debug`, and sized by its limit.

use uglezmir::gossip_policy::*;
use uglezmir::peer_message_policy::*;

fn is_shared<T: Send + Sync + std::fmt::Debug>() {}
fn is_cloned<T: Clone>() {}

#[test]
fn every_type_is_send_sync_and_debug() {
    is_shared::<PeerMessagePolicy>();
    is_shared::<HeldPeerMessagePolicy>();
    is_shared::<PeerMessagePolicyConfig>();
    is_shared::<PeerMessageAdmission>();
    is_shared::<Cause>();
    is_shared::<Limit>();
    is_shared::<GossipBanTracker>();
    is_shared::<ChannelUpdateLimiter>();
    is_shared::<GossipPolicyState>();
    is_shared::<ByteTokenBucket>();
    is_shared::<DiscreteTokenBucket>();
    is_shared::<uglezmir::Refusal>();
}

#[test]
fn what_the_rust_clones_is_cloned() {
    is_cloned::<GossipBanTracker>();
    is_cloned::<ChannelUpdateLimiter>();
    is_cloned::<GossipPolicyState>();
    is_cloned::<ByteTokenBucket>();
    is_cloned::<DiscreteTokenBucket>();
    let mut first = GossipPolicyState::default();
    let mut second = first.clone();
    assert!(first.record_violation(&[2u8; 33], GossipViolation::InvalidSyncResponse, 5));
    assert!(first.is_banned(&[2u8; 33], 6) && !second.is_banned(&[2u8; 33], 6));
}

#[test]
fn debug_says_what_is_held_and_no_table() {
    let mut policy = PeerMessagePolicy::default();
    policy.admit(&[2u8; 33], 300, 50);
    let shown = format!("{policy:?}");
    assert!(
        shown.contains("in_flight: (1, 300), tracked_peers: 1") && shown.len() < 1_000,
        "{shown}"
    );
    let shown = format!("{:?}", GossipPolicyState::default());
    assert!(shown.contains("outbound_peers: 0") && shown.len() < 1_000, "{shown}");
}

#[test]
fn a_policy_goes_to_another_thread() {
    let mut policy = HeldPeerMessagePolicy::default();
    let in_flight = std::thread::spawn(move || {
        policy.admit(&[2u8; 33], 300, 50);
        policy.in_flight()
    });
    assert_eq!(in_flight.join().unwrap(), (1, 300));
}

/// The state is made of parts that are made by themselves: they are what the library's own maker would make.
#[test]
fn the_defaults_are_the_library_s() {
    use uglezmir_sys::{gossip, numbers};
    let (mut longs, mut shorts) = ([u64::MAX; numbers::GOSSIP_LONGS], [u32::MAX; numbers::GOSSIP_SHORTS]);
    let mut tables = [vec![1; 66_560], vec![1; 66_560]];
    let [bans, outbound] = &mut tables;
    let operation = numbers::OP_GOSSIP_DEFAULT;
    let number = gossip::gossip(
        operation,
        &mut longs,
        &mut shorts,
        bans,
        outbound,
        &[0; 33],
        0,
        0,
        0,
        &mut [0],
    );
    assert_eq!(number, numbers::DONE);
    let expected = [
        DEFAULT_GOSSIP_BAN_DURATION_MS,
        DEFAULT_GOSSIP_BAN_MAX_TRACKED_PEERS as u64,
        0,
        DEFAULT_GOSSIP_GLOBAL_MSG_RATE_BYTES,
        DEFAULT_GOSSIP_GLOBAL_MSG_BURST_BYTES,
        0,
        DEFAULT_GOSSIP_PEER_MSG_RATE_BYTES,
        DEFAULT_GOSSIP_PEER_MSG_BURST_BYTES,
        0,
        DEFAULT_GOSSIP_OUTBOUND_DELAY_QUEUE_CAPACITY as u64,
    ];
    assert_eq!(longs, expected);
    let burst = DEFAULT_GOSSIP_GLOBAL_MSG_BURST_BYTES as u32;
    assert_eq!(shorts, [DEFAULT_GOSSIP_BAN_THRESHOLD, 0, burst, 0, 0, 0]);
}
