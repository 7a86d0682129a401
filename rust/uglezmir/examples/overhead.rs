//! What the crate costs: an admit through it, through the held policy, and by the bare C function, in nanoseconds.
//!
//!     cargo run --offline --release --example overhead      (in rust/)
//!
//! Default settings but for an unlimited ceiling; an admit of each peer every 6 ms, all of them Allows. The least of 15 runs of
//! 100,000, in turns: other work on the machine only adds.

use std::hint::black_box;
use std::time::Instant;
use uglezmir::peer_message_policy::{
    HeldPeerMessagePolicy, PeerMessageAdmission, PeerMessagePolicy, PeerMessagePolicyConfig,
};
use uglezmir_sys::numbers::{ALLOW, MOST_ROWS, PEER_ROW, POLICY_LONGS, POLICY_SHORTS};
use uglezmir_sys::{buckets, numbers, peers};

const EVENTS: usize = 100_000;
const RUNS: usize = 15;
const FIRST_TIME: u64 = 1_700_000_000_000;

struct Event {
    key: [u8; 33],
    bytes: u64,
    now: u64,
}

fn events(peers: usize) -> Vec<Event> {
    let event = |number: usize| {
        let peer = number.wrapping_mul(0x9e37_79b9) % peers;
        Event {
            key: std::array::from_fn(|at| (peer >> (8 * (at % 2))) as u8),
            bytes: 100 + number as u64 % 400,
            now: FIRST_TIME + (6 * number / peers) as u64,
        }
    };
    (0..EVENTS).map(event).collect()
}

fn config() -> PeerMessagePolicyConfig {
    PeerMessagePolicyConfig {
        max_in_flight_messages: 0,
        ..Default::default()
    }
}

/// Nanoseconds an event; every event must be an Allow.
fn time(events: &[Event], mut admit: impl FnMut(&Event) -> bool) -> f64 {
    let began = Instant::now();
    let allowed = events.iter().filter(|event| admit(black_box(event))).count();
    let time = began.elapsed().as_nanos() as f64 / events.len() as f64;
    assert_eq!(allowed, events.len());
    time
}

fn through_the_crate(events: &[Event]) -> f64 {
    let mut policy = PeerMessagePolicy::new(config()).expect("1,024 peers");
    time(events, |e| {
        policy.admit(&e.key, e.bytes, e.now) == PeerMessageAdmission::Allow
    })
}

fn held(events: &[Event]) -> f64 {
    let mut policy = HeldPeerMessagePolicy::new(config()).expect("1,024 peers");
    time(events, |e| {
        policy.admit(&e.key, e.bytes, e.now) == PeerMessageAdmission::Allow
    })
}

fn bare(events: &[Event]) -> f64 {
    let (mut settings, mut short_settings) = ([0; numbers::SETTINGS_LONGS], [0; numbers::SETTINGS_SHORTS]);
    buckets::settings(numbers::OP_SETTINGS_DEFAULT, &mut settings, &mut short_settings);
    let (mut longs, mut shorts) = ([0; POLICY_LONGS], [0; POLICY_SHORTS]);
    longs[..settings.len()].copy_from_slice(&settings);
    shorts[..short_settings.len()].copy_from_slice(&short_settings);
    shorts[numbers::POLICY_SHORT_MAX_IN_FLIGHT_MESSAGES] = 0;
    let mut table = vec![0; MOST_ROWS * PEER_ROW];
    peers::new(&mut longs, &mut shorts, &mut table);
    time(events, |e| {
        peers::admit(&mut longs, &mut shorts, &mut table, &e.key, e.bytes, e.now) == ALLOW
    })
}

fn least(times: Vec<f64>) -> f64 {
    times.into_iter().fold(f64::INFINITY, f64::min)
}

fn main() {
    println!(
        "{:>6}  {:>15}  {:>9}  {:>11}",
        "peers", "bare C function", "the crate", "held policy"
    );
    for peers in [1, 16, 1_024] {
        let events = events(peers);
        let mut times = [Vec::new(), Vec::new(), Vec::new()];
        for _ in 0..RUNS {
            for (times, run) in times.iter_mut().zip([bare, through_the_crate, held]) {
                times.push(run(&events));
            }
        }
        let [bare, through, held] = times.map(least);
        println!("{peers:>6}  {bare:>12.1} ns  {through:>6.1} ns  {held:>8.1} ns");
    }
}
