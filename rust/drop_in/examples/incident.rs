//! The incident that this project began with: a clock that steps back by one interval, on the unchanged Rust, on the port, and on the held port.
//!
//!     cargo run --offline --example incident      (in rust/)

use drop_in as _;
use fiber_types::Pubkey;
use uglezmir::peer_message_policy as port;

// The Rust's own text, not a byte changed.
#[allow(dead_code, clippy::all)]
mod fiber {
    include!(concat!(env!("OUT_DIR"), "/modules.rs"));
}
use fiber::peer_message_policy as original;

/// A day in 2024, 2^32 times 80 intervals of 5 ms after the clock's beginning.
const NOW: u64 = 1_717_986_918_400;

const FLOODER: Pubkey = Pubkey([2; 33]);
const QUIET: Pubkey = Pubkey([3; 33]);

enum Event {
    Admit(Pubkey, u64),
    Release,
}

const EVENTS: [(Event, &str); 10] = [
    (
        Event::Admit(FLOODER, NOW),
        "a flooder: three messages at once are its burst",
    ),
    (Event::Admit(FLOODER, NOW), ""),
    (Event::Admit(FLOODER, NOW), ""),
    (Event::Admit(FLOODER, NOW), "one too many"),
    (
        Event::Admit(FLOODER, NOW - 5),
        "the clock has stepped back by one interval",
    ),
    (Event::Admit(FLOODER, NOW - 5), ""),
    (
        Event::Admit(FLOODER, NOW - 5),
        "where it was let in, the extra burst has filled the ceiling of six",
    ),
    (Event::Admit(QUIET, NOW - 4), "a quiet neighbour's first message"),
    (Event::Release, "one message is done with"),
    (Event::Admit(QUIET, NOW - 3), "the quiet neighbour again"),
];

/// Three messages a peer and one more each 5 ms; six in flight. The same text for both types of settings.
macro_rules! config {
    ($side:ident) => {
        $side::PeerMessagePolicyConfig {
            peer_message_interval_ms: 5,
            peer_message_burst: 3,
            violation_ban_threshold: 0,
            max_tracked_peers: 16,
            max_in_flight_messages: 6,
            ..Default::default()
        }
    };
}

/// What a policy answers to all events. The same text for all three types.
macro_rules! answers {
    ($policy:expr) => {{
        let mut policy = $policy;
        EVENTS.map(|(event, _)| match event {
            Event::Admit(peer, now) => format!("{:?}", policy.admit(&peer, 100, now)),
            Event::Release => {
                policy.release_ingress(100);
                "-".to_string()
            }
        })
    }};
}

fn main() -> Result<(), uglezmir::Refusal> {
    let rust = answers!(original::PeerMessagePolicy::new(config!(original)));
    let plain = answers!(port::PeerMessagePolicy::new(config!(port))?);
    let held = answers!(port::HeldPeerMessagePolicy::new(config!(port))?);
    println!(
        "{:<8} {:<14} {:<11} {:<11} {:<11}",
        "peer", "time", "the Rust", "the port", "held port"
    );
    for (at, (event, note)) in EVENTS.iter().enumerate() {
        let (peer, time) = match event {
            Event::Admit(peer, now) => (if *peer == FLOODER { "flooder" } else { "quiet" }, now.to_string()),
            Event::Release => ("-", "-".to_string()),
        };
        println!(
            "{peer:<8} {time:<14} {:<11} {:<11} {:<11} {note}",
            rust[at], plain[at], held[at]
        );
    }
    let extra = |answers: &[String; 10]| answers[4..7].iter().filter(|answer| *answer == "Allow").count();
    println!();
    println!(
        "messages beyond the flooder's share: {}, {}, {}",
        extra(&rust),
        extra(&plain),
        extra(&held)
    );
    println!(
        "the quiet neighbour's first message: {}, {}, {}",
        rust[7], plain[7], held[7]
    );
    Ok(())
}
