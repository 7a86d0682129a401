//! A million made-up calls on both sides, each answered alike: fresh policies of limits 0, 1, 16 and 1,024, with clocks that stand, run, jump and
//! step back.
//!
//! Outside the comparison is what can't be equal: an admit that the port refuses with 4 is not made (it is seen in the load in flight),
//! with fewer than 1,024 peers refusal 5 is out of reach, and so is a full ban table of the gossip state, whose limits differ. Where a violation would
//! evict one of several gossip entries that tie, the Rust takes any and the port the smallest key: the tie is seen beforehand, the call is not
//! made, and both sides get one that ends the tie.

use crate::call::{Call, Settings};
use crate::dice::Dice;
use crate::{original, port};
use std::collections::{BTreeMap, HashMap};

#[derive(Clone, Copy, Debug, PartialEq, Eq)]
enum Kind {
    Peers,
    Bans,
    Limiter,
    Buckets,
    State,
}

/// Kind, limit, calls.
const SHARES: [(Kind, usize, usize); 14] = [
    (Kind::Peers, 0, 130_000),
    (Kind::Peers, 1, 130_000),
    (Kind::Peers, 16, 200_000),
    (Kind::Peers, 1_024, 90_000),
    (Kind::Bans, 0, 30_000),
    (Kind::Bans, 1, 30_000),
    (Kind::Bans, 16, 80_000),
    (Kind::Bans, 1_024, 30_000),
    (Kind::Limiter, 0, 20_000),
    (Kind::Limiter, 1, 20_000),
    (Kind::Limiter, 16, 60_000),
    (Kind::Limiter, 1_024, 20_000),
    (Kind::Buckets, 1, 60_000),
    (Kind::State, 16, 100_000),
];

/// One fresh policy of a kind on both sides.
struct Run {
    kind: Kind,
    settings: Settings,
    peers: u64,
    now: u64,
    dice: Dice,
    /// When each peer's gossip entry was last updated, if it has one.
    updated: HashMap<u64, u64>,
    original: original::Side,
    port: port::Side,
}

/// How often each call was answered how, and how many ties there were.
#[derive(Default)]
struct Seen {
    calls: usize,
    ties: usize,
    answers: BTreeMap<String, usize>,
}

#[test]
fn a_million_calls_are_answered_alike() {
    let mut seen = Seen::default();
    for (at, (kind, limit, calls)) in SHARES.into_iter().enumerate() {
        let length = if limit == 1_024 { 10_000 } else { 1_000 };
        for number in 0..calls / length {
            let mut run = Run::new(kind, limit, (at * 1_000_000 + number) as u64);
            for _ in 0..length {
                run.step(&mut seen);
            }
        }
    }
    println!("{} calls, equal answers, {} ties passed over", seen.calls, seen.ties);
    for (answer, count) in &seen.answers {
        println!("{count:>8}  {answer}");
    }
    assert_eq!(seen.calls, 1_000_000);
    for often in [
        "Admit 0",
        "Admit 1",
        "Admit 2",
        "RecordInvalid 1",
        "RecordViolation 1",
        "TryAcquire 0",
        "AllowOutbound 0",
    ] {
        assert!(seen.answers[often] > 1_000, "{often} is rare");
    }
    assert!(seen.ties > 100);
}

impl Run {
    fn new(kind: Kind, limit: usize, seed: u64) -> Self {
        let mut dice = Dice(seed);
        let settings = settings(limit, &mut dice);
        let around_the_limit = (limit + limit / 2) as u64 + 3;
        Self {
            kind,
            peers: if kind == Kind::State {
                dice.of(&[3, 40, 900])
            } else {
                around_the_limit
            },
            now: dice.of(&[0, 1_000, 1_717_986_918_400, u64::MAX - 10_000]),
            updated: HashMap::new(),
            original: original::Side::new(&settings),
            port: port::Side::new(&settings),
            settings,
            dice,
        }
    }

    fn step(&mut self, seen: &mut Seen) {
        self.tick();
        let mut call = match self.kind {
            Kind::Peers => self.on_peers(),
            Kind::Bans => self.on_bans(),
            Kind::Limiter => self.on_the_limiter(),
            Kind::Buckets => self.on_buckets(),
            Kind::State => self.on_the_state(),
        };
        if let Some(tied) = self.tie(&call) {
            seen.ties += 1;
            call = Call::RecordViolation {
                peer: tied,
                violation: 2,
                now: self.now,
            };
        }
        if let Call::RecordViolation { peer, now, .. } = call {
            self.updated.insert(peer, now);
        }
        let (answer, of_port) = (self.original.answer(&call), self.port.answer(&call));
        assert_eq!(answer, of_port, "{call:?} under {:?}", self.settings);
        seen.calls += 1;
        let name = format!("{call:?}");
        let name = name.split(' ').next().unwrap();
        let shown = if answer.number < 3 {
            answer.number.to_string()
        } else {
            "more".into()
        };
        *seen.answers.entry(format!("{name} {shown}")).or_default() += 1;
    }

    /// A peer whose entry ties with another's where this call would evict one of them.
    fn tie(&self, call: &Call) -> Option<u64> {
        let Call::RecordViolation { peer, now, .. } = *call else {
            return None;
        };
        let entries = self
            .original
            .entries_in_the_way(peer, self.peers, self.settings.limit, now);
        let rank = |(peer, banned, score): &(u64, bool, u32)| (*banned, *score, self.updated[peer]);
        let least = entries.iter().map(rank).min()?;
        let mut tied = entries.iter().filter(|entry| rank(entry) == least);
        tied.next();
        tied.next().map(|(peer, ..)| *peer)
    }

    /// The clock stands, runs, jumps, and steps back.
    fn tick(&mut self) {
        let Settings {
            interval_ms,
            ban_duration_ms,
            ..
        } = self.settings;
        let step = interval_ms.clamp(1, 1_000);
        self.now = match self.dice.below(40) {
            0..=15 => self.now,
            16..=30 => self.now.saturating_add(self.dice.below(2 * step)),
            31..=34 => self.now.saturating_add(self.dice.below(2 * ban_duration_ms + 2)),
            35..=36 => self.now.saturating_sub(step),
            37..=38 => self.now.saturating_sub(self.dice.below(2 * ban_duration_ms + 2)),
            _ if self.dice.one_in(8) => self.dice.of(&[0, 1 << 32, 1_717_986_918_400, u64::MAX]),
            _ => self.now.saturating_add(step << self.dice.of(&[31, 32])),
        };
    }

    fn peer(&mut self) -> u64 {
        self.dice.below(self.peers)
    }

    fn bytes(&mut self) -> u64 {
        let Settings {
            burst_bytes,
            peer_burst_bytes,
            ..
        } = self.settings;
        match self.dice.below(20) {
            0 => burst_bytes,
            1 => peer_burst_bytes.saturating_add(1),
            2 if self.dice.one_in(10) => self.dice.roll(),
            3 if self.dice.one_in(10) => u64::MAX,
            _ => self.dice.below(burst_bytes.clamp(1, 100_000) / 2 + 2),
        }
    }

    fn on_peers(&mut self) -> Call {
        let (peer, now) = (self.peer(), self.now);
        let bytes = self.bytes();
        match self.dice.below(20) {
            0..=10 => self.admit_within_the_domain(peer, bytes),
            11 | 12 => Call::RecordInvalid { peer, now },
            13 | 14 => Call::PeerIsBanned { peer, now },
            15 => Call::OnDisconnected { peer, now },
            _ => Call::ReleaseIngress { bytes },
        }
    }

    /// An admit, or a release of all bytes where the port would refuse it with 4.
    fn admit_within_the_domain(&mut self, peer: u64, bytes: u64) -> Call {
        let Settings {
            max_messages,
            max_bytes,
            ..
        } = self.settings;
        let (_, in_flight) = self.original.in_flight();
        let unlimited = max_messages == 0 || max_bytes == 0;
        if unlimited && in_flight.checked_add(bytes).is_none() {
            return Call::ReleaseIngress { bytes: in_flight };
        }
        Call::Admit {
            peer,
            bytes,
            now: self.now,
        }
    }

    fn on_bans(&mut self) -> Call {
        let (peer, now) = (self.peer(), self.now);
        let violation = self.dice.of(&[0, 1, 2, 2, 2, 2]);
        match self.dice.below(20) {
            0..=13 => Call::RecordViolation { peer, violation, now },
            14..=16 => Call::IsBanned { peer, now },
            17 | 18 => Call::Score { peer, now },
            _ if self.dice.one_in(8) => Call::PruneExpired { now },
            _ => Call::Score { peer, now },
        }
    }

    fn on_the_limiter(&mut self) -> Call {
        let peer = self.peer();
        Call::TryAcquire {
            peer: peer / 2,
            channel: self.dice.below(2) + peer % 2,
            side: self.dice.one_in(2),
            now: self.now,
        }
    }

    fn on_buckets(&mut self) -> Call {
        let (bytes, now) = (self.bytes(), self.now);
        match self.dice.below(8) {
            0 | 1 => Call::TryConsume { now },
            2 | 3 => Call::ByteTryConsume { bytes, now },
            4 => Call::ByteReserve { bytes, now },
            5 => Call::ByteRefund { bytes, now },
            _ => Call::ByteHasDebt { now },
        }
    }

    fn on_the_state(&mut self) -> Call {
        let (peer, bytes, now) = (self.peer(), self.bytes(), self.now);
        let violation = self.dice.of(&[0, 1, 2, 2, 2]);
        match self.dice.below(20) {
            0 | 1 => Call::StateRecordViolation { peer, violation, now },
            2 | 3 => Call::StateIsBanned { peer, now },
            4 => Call::PruneBans { now },
            5..=9 => Call::AllowOutbound { peer, bytes, now },
            10 | 11 => Call::EstimateDelay { peer, bytes, now },
            12 => Call::RemoveOutboundPeer { peer },
            13 | 14 => Call::ReserveOutbound { peer, bytes, now },
            15 | 16 => Call::RefundOutbound { peer, bytes, now },
            17 | 18 => Call::ShouldBypass { peer, bytes, now },
            _ => Call::Exceeds { bytes },
        }
    }
}

pub fn settings(limit: usize, dice: &mut Dice) -> Settings {
    Settings {
        limit,
        interval_ms: dice.of(&[0, 1, 5, 5, 10, 1_000]),
        burst: dice.of(&[0, 1, 2, 3, 20, 400]),
        rate: dice.of(&[0, 1, 999, 1_000, 51_200, 1 << 40]),
        burst_bytes: dice.of(&[0, 1, 300, 5_000, 102_400, u64::MAX]),
        peer_rate: dice.of(&[0, 1, 999, 51_200]),
        peer_burst_bytes: dice.of(&[0, 10, 5_000, u64::MAX]),
        threshold: dice.of(&[0, 1, 2, 20, 100, 100, 100]),
        ban_duration_ms: dice.of(&[0, 1, 100, 100, 600_000, 600_000]),
        max_messages: dice.of(&[0, 1, 6, 100, 4_096]),
        max_bytes: dice.of(&[0, 1_000, 100_000, 1 << 25, u64::MAX]),
    }
}
