//! The held policy: no peer's time goes back, and nothing else differs.

use uglezmir::peer_message_policy::PeerMessageAdmission::{Allow, Ban, Disconnect};
use uglezmir::peer_message_policy::{HeldPeerMessagePolicy, PeerMessagePolicy, PeerMessagePolicyConfig};

/// 2^32 times 80 intervals of 5 ms: a day in 2024.
const NOW: u64 = 1_717_986_918_400;
const FLOODER: [u8; 33] = [2; 33];
const QUIET: [u8; 33] = [3; 33];

fn config() -> PeerMessagePolicyConfig {
    PeerMessagePolicyConfig {
        peer_message_interval_ms: 5,
        peer_message_burst: 3,
        peer_message_rate_bytes_per_sec: 0,
        violation_ban_threshold: 0,
        max_tracked_peers: 2,
        max_in_flight_messages: 6,
        ..Default::default()
    }
}

#[test]
fn a_clock_that_steps_back_fills_no_bucket() {
    let (mut plain, mut held) = (
        PeerMessagePolicy::new(config()).unwrap(),
        HeldPeerMessagePolicy::new(config()).unwrap(),
    );
    let times = [NOW, NOW, NOW, NOW, NOW - 5, NOW - 5, NOW - 5];
    let of_plain = times.map(|now| plain.admit(&FLOODER, 100, now));
    let of_held = times.map(|now| held.admit(&FLOODER, 100, now));
    assert_eq!(of_plain, [Allow, Allow, Allow, Disconnect, Allow, Allow, Allow]);
    assert_eq!(
        of_held,
        [Allow, Allow, Allow, Disconnect, Disconnect, Disconnect, Disconnect]
    );
    // the extra burst filled the ceiling, and the quiet neighbour pays for it
    assert_eq!(plain.admit(&QUIET, 100, NOW - 4), Disconnect);
    assert_eq!(held.admit(&QUIET, 100, NOW - 4), Allow);
}

#[test]
fn invalid_messages_are_counted_in_held_time() {
    let config = PeerMessagePolicyConfig {
        violation_ban_threshold: 2,
        ban_duration_ms: 100,
        ..config()
    };
    let (mut plain, mut held) = (
        PeerMessagePolicy::new(config).unwrap(),
        HeldPeerMessagePolicy::new(config).unwrap(),
    );
    // the second comes at a time that is an hour back
    let times = [NOW, NOW - 3_600_000];
    assert_eq!(times.map(|now| plain.record_invalid(&FLOODER, now)), [false, true]);
    assert_eq!(times.map(|now| held.record_invalid(&FLOODER, now)), [false, true]);
    // the plain ban was over before it began; the held one lasts its 100 ms
    assert!(!plain.is_banned(&FLOODER, NOW) && held.is_banned(&FLOODER, NOW + 99));
    assert_eq!(held.admit(&FLOODER, 1, NOW + 99), Ban);
    assert_eq!(held.admit(&FLOODER, 1, NOW + 100), Allow);
}

#[test]
fn a_newcomer_while_the_clock_is_back_goes_first() {
    let mut held = HeldPeerMessagePolicy::new(config()).unwrap();
    let (newcomer, next) = ([4u8; 33], [5u8; 33]);
    for peer in [FLOODER, QUIET] {
        held.admit(&peer, 1, NOW);
    }
    let back = NOW - 3_600_000;
    // it takes the place of one of the two, and empties its bucket
    let answers = [1, 1, 1, 1].map(|bytes| held.admit(&newcomer, bytes, back));
    assert_eq!(answers, [Allow, Allow, Allow, Disconnect]);
    // the next one takes the newcomer's place, who comes again with a full bucket
    held.admit(&next, 1, back + 1);
    held.release_ingress(1);
    assert_eq!(held.admit(&newcomer, 1, back + 1), Allow);
}

#[test]
fn under_a_clock_that_runs_on_both_are_the_same() {
    let (mut plain, mut held) = (
        PeerMessagePolicy::new(config()).unwrap(),
        HeldPeerMessagePolicy::new(config()).unwrap(),
    );
    for step in 0..2_000u64 {
        let (peer, now) = ([(step * 7 % 5) as u8; 33], NOW + step / 3);
        match step % 11 {
            0 => assert_eq!(plain.record_invalid(&peer, now), held.record_invalid(&peer, now)),
            1 => assert_eq!(plain.is_banned(&peer, now), held.is_banned(&peer, now)),
            2 => {
                plain.on_disconnected(&peer, now);
                held.on_disconnected(&peer, now);
            }
            3 | 4 => {
                plain.release_ingress(50);
                held.release_ingress(50);
            }
            _ => assert_eq!(plain.admit(&peer, 50, now), held.admit(&peer, 50, now)),
        }
        assert_eq!(plain.in_flight(), held.in_flight());
    }
}
