//! The explained form beside the Rust: from outside the Rust shows its answer, who is banned and the load in flight, and these tell every cause but
//! the two buckets apart.

use crate::call::{pubkey, Call, Settings};
use crate::dice::Dice;
use crate::random::settings;
use crate::{original, port};
use std::collections::BTreeMap;
use uglezmir::peer_message_policy::{Cause, PeerMessagePolicy, Shortage};

/// What the Rust shows around an admit: its answer as a number, and before it the standing of the peer and the load in flight.
struct Shown {
    answer: u64,
    banned: bool,
    messages: u32,
    bytes: u64,
}

fn explains(cause: Cause, size: u64, shown: &Shown, settings: &Settings) -> bool {
    let Settings {
        max_messages,
        max_bytes,
        ..
    } = *settings;
    let limited = max_messages > 0 && max_bytes > 0;
    let slot_is_free = shown.messages < max_messages;
    match (shown.answer, cause) {
        (0, Cause::Allowed) => true,
        (1, Cause::Short(Shortage::Messages)) => settings.interval_ms > 0,
        (1, Cause::Short(Shortage::Bytes(short))) => settings.rate > 0 && 0 < short && short <= size,
        (1, Cause::Short(Shortage::Slot)) => limited && !slot_is_free,
        (1, Cause::Short(Shortage::CeilingBytes(short))) => {
            let left = max_bytes - shown.bytes;
            limited && slot_is_free && short > 0 && size.checked_sub(short) == Some(left)
        }
        (2, Cause::LiveBan) => shown.banned,
        (2, Cause::BanBegun) => !shown.banned,
        _ => false,
    }
}

/// One message on both sides, and a release now and then.
fn step(
    dice: &mut Dice,
    settings: &Settings,
    rust: &mut original::Side,
    ours: &mut PeerMessagePolicy,
    now: u64,
) -> Cause {
    let (peer, size) = (dice.below(6), dice.of(&[0, 1, 1, 100, 900, 5_000]));
    if dice.one_in(4) {
        rust.answer(&Call::ReleaseIngress { bytes: size });
        ours.release_ingress(size);
    }
    let banned = rust.answer(&Call::PeerIsBanned { peer, now }).number == 1;
    assert_eq!(ours.is_banned(&pubkey(peer), now), banned);
    let (messages, bytes) = rust.in_flight();
    let call = Call::Admit { peer, bytes: size, now };
    let shown = Shown {
        answer: rust.answer(&call).number,
        banned,
        messages,
        bytes,
    };
    let cause = ours
        .try_admit_explained(&pubkey(peer), size, now)
        .expect("numbers that fit");
    assert!(
        explains(cause, size, &shown, settings),
        "{cause:?} to {call:?} under {settings:?}"
    );
    cause
}

#[test]
fn causes_are_what_the_rust_shows() {
    let mut seen = BTreeMap::new();
    for seed in 0..400 {
        let mut dice = Dice(seed);
        let settings = settings(4, &mut dice);
        let (mut rust, mut ours) = (original::Side::new(&settings), port::Side::new(&settings).policy);
        let mut now = 1_717_986_918_400;
        for _ in 0..250 {
            now += dice.of(&[0, 0, 0, 1, 50]);
            let cause = step(&mut dice, &settings, &mut rust, &mut ours, now);
            let name = match cause {
                Cause::Short(shortage) => format!("{:?}", shortage.limit()),
                cause => format!("{cause:?}"),
            };
            *seen.entry(name).or_insert(0) += 1;
        }
    }
    println!("{seen:?}");
    assert!(seen.len() == 6 && seen.values().all(|count| *count > 500), "{seen:?}");
}
