//! What a trace takes on either side. Each run looks that all of it was allowed, and at the rows at its end.

use super::clock::{medians, time_each};
use super::trace::{Event, Trace, FULL};
use original::UnchangedRust;
use vocabulary::layout::ROW;
use vocabulary::{Answer, Original, PeerCall, PeerState, Port, Record, Settings};

/// Nanoseconds an event.
pub struct Times {
    pub rust: f64,
    pub port: f64,
}

impl Times {
    pub fn ratio(&self) -> f64 {
        self.port / self.rust
    }
}

impl std::fmt::Display for Times {
    fn fmt(&self, f: &mut std::fmt::Formatter<'_>) -> std::fmt::Result {
        let (rust, port, ratio) = (self.rust, self.port, self.ratio());
        write!(f, "Rust {rust:.1} ns an event, port {port:.1} ns, ratio {ratio:.2}")
    }
}

/// What a trace takes on both sides, in turns, each run from fresh.
pub fn time<P: Port>(port: &P, trace: &Trace) -> Times {
    let [rust, port] = medians(|| [time_original(trace), time_port(port, trace)]);
    Times { rust, port }
}

fn time_original(trace: &Trace) -> f64 {
    let mut rust = UnchangedRust::default();
    let mut state = fresh();
    rust.set_peers(&state);
    let time = time_admits(trace, |event| rust.admit(&event.key, event.bytes, event.now));
    rust.read_peers(&mut state);
    assert_eq!(state.rows.len(), trace.rows, "the Rust's rows");
    time
}

fn time_port<P: Port>(port: &P, trace: &Trace) -> f64 {
    let mut lent = Lent::fresh(port);
    let time = time_admits(trace, |event| lent.admit(port, event));
    assert_eq!(lent.record.longs[7], trace.rows as u64, "the port's rows");
    time
}

/// The time of the events, after the opening; `admit` says whether one was allowed.
fn time_admits(trace: &Trace, mut admit: impl FnMut(&Event) -> bool) -> f64 {
    open(trace, &mut admit);
    let mut allowed = 0;
    let time = time_each(&trace.events, |event| allowed += usize::from(admit(event)));
    assert_eq!(allowed, trace.events.len(), "events that were allowed, of all");
    time
}

fn open(trace: &Trace, admit: impl FnMut(&Event) -> bool) {
    assert!(
        trace.opening.iter().all(admit),
        "an event of the opening was not allowed"
    );
}

/// The policy before its first event: the defaults, but for an unlimited ceiling and 1,024 rows.
fn fresh() -> PeerState {
    PeerState::fresh(Settings {
        max_tracked: FULL as u64,
        max_messages: 0,
        max_bytes: 0,
        ..UnchangedRust::default().default_settings()
    })
}

/// A policy of the port's: the record and the table that each call is lent.
pub struct Lent {
    pub record: Record,
    pub table: Vec<u8>,
}

impl Lent {
    fn fresh<P: Port>(port: &P) -> Self {
        let mut lent = Self {
            record: Record::of(&fresh()),
            table: vec![0; ROW * FULL],
        };
        port.make_peers(&mut lent.record, &mut lent.table);
        lent
    }

    /// As the trace's opening leaves it.
    pub fn opened<P: Port>(port: &P, trace: &Trace) -> Self {
        let mut lent = Self::fresh(port);
        open(trace, |event| lent.admit(port, event));
        lent
    }

    pub fn call<P: Port>(&mut self, port: &P, call: &PeerCall) -> Answer {
        port.peers(call, &mut self.record, &mut self.table)
    }

    fn admit<P: Port>(&mut self, port: &P, event: &Event) -> bool {
        port.allows(&event.key, event.bytes, event.now, &mut self.record, &mut self.table)
    }
}
