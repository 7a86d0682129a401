//! Counts of a run: calls, mismatches and answers for each operation, and what happened to the rows.

use crate::snapshots::WRITE;
use crate::trace::Kind;
use vocabulary::Answer;

/// What a call did besides its answer, or what was read.
#[derive(Clone, Copy)]
pub enum Event {
    RowMade,
    OwnSpentBanDropped,
    SpentBansDroppedForRoom,
    UnbannedEvicted,
    UnbannedEvictedInATie,
    BannedEvicted,
    WindowExpired,
    BanBegun,
    MessagesShort,
    BytesShort,
    SlotShort,
    CeilingBytesShort,
    LiveBanAnswered,
    TimeBeforeLastUsed,
    BanAtItsExactEnd,
    RefillPast32Bits,
    GossipRowAtItsExactEnd,
    GossipBanAtItsExactEnd,
    TimeBeforeLastUpdate,
    ExpiredRowsDropped,
    GossipUnbannedEvicted,
    GossipBannedEvicted,
    GossipBanBegun,
    LimiterMadeRoom,
    LimiterStayedFull,
    OutboundRowMade,
    OutboundDebt,
    SnapshotWithoutRows,
    SnapshotOfMostRows,
    SnapshotOfLimit0,
}

pub const EVENTS: [&str; 30] = [
    "row made",
    "own spent ban dropped",
    "spent bans dropped for room",
    "unbanned row evicted",
    "  of these in a tie",
    "banned row evicted",
    "window expired",
    "ban begun",
    "Disconnect: a message short",
    "Disconnect: bytes short",
    "Disconnect: a slot of the ceiling short",
    "Disconnect: bytes of the ceiling short",
    "live ban answered",
    "time before the row's last use",
    "ban at its exact end",
    "Allow 2^32 intervals or more after refill",
    "gossip: own row at its exact end",
    "gossip: ban at its exact end",
    "gossip: time before the row's last update",
    "gossip: expired rows dropped",
    "gossip: row evicted, not banned now",
    "gossip: row evicted, banned now",
    "gossip: ban begun",
    "limiter: full, and room was made",
    "limiter: full, and stayed so",
    "outbound: row made",
    "outbound: row in debt",
    "snapshot read: no rows",
    "snapshot read: 1,024 rows",
    "snapshot read: limit 0",
];

/// Refusals 1 to 6, then the answers from 256 on.
const ANSWERS: usize = 14;

#[derive(Clone, Default)]
pub struct OperationTally {
    pub calls: u64,
    pub mismatches: u64,
    answers: [u64; ANSWERS],
}

#[derive(Clone)]
pub struct Tally {
    operations: Vec<(Kind, Vec<OperationTally>)>,
    pub events: [u64; EVENTS.len()],
    pub refusal_4: u64,
    pub refusal_5: u64,
    /// Gossip evictions in which several rows were least, after which the sides were brought together.
    pub ties: u64,
    /// Whether events are looked for: they cost time.
    pub watch: bool,
}

impl Default for Tally {
    fn default() -> Self {
        let of = |kind: Kind| (kind, vec![OperationTally::default(); kind.operations().len()]);
        Self {
            operations: Kind::ALL.into_iter().map(of).collect(),
            events: [0; EVENTS.len()],
            refusal_4: 0,
            refusal_5: 0,
            ties: 0,
            watch: false,
        }
    }
}

impl Tally {
    fn of(&mut self, kind: Kind, operation: u64) -> &mut OperationTally {
        &mut self.operations[kind as usize].1[operation as usize]
    }

    pub fn count(&mut self, kind: Kind, operation: u64, answer: &Answer) {
        let tally = self.of(kind, operation);
        tally.calls += 1;
        let place = match answer.number {
            refusal @ 0..=7 => refusal as usize,
            number => (number as usize).saturating_sub(256) + 8,
        };
        tally.answers[place.min(ANSWERS - 1)] += 1;
    }

    pub fn mismatch(&mut self, kind: Kind, operation: u64) {
        self.of(kind, operation).mismatches += 1;
    }

    pub fn event(&mut self, event: Event) {
        self.events[event as usize] += 1;
    }

    pub fn calls(&self) -> u64 {
        self.all().map(|tally| tally.calls).sum()
    }

    pub fn mismatches(&self) -> u64 {
        self.all().map(|tally| tally.mismatches).sum()
    }

    fn all(&self) -> impl Iterator<Item = &OperationTally> {
        self.operations.iter().flat_map(|(_, tallies)| tallies)
    }

    /// Calls on snapshots, without the peers' calls between them.
    fn snapshots(&self) -> u64 {
        let sum = |tallies: &[OperationTally]| tallies.iter().map(|tally| tally.calls).sum::<u64>();
        let of = |kind: Kind| &self.operations[kind as usize].1;
        sum(&of(Kind::Snapshots)[WRITE as usize..]) + sum(of(Kind::SnapshotRefusals))
    }

    /// A line for each operation.
    pub fn table(&self) -> String {
        let mut text = format!("{:<60}{:>12}{:>12}\n", "operation", "calls", "mismatches");
        for (kind, tallies) in &self.operations {
            for (name, tally) in kind.operations().iter().zip(tallies) {
                let name = format!("{}: {name}", kind.name());
                text += &format!("{name:<60}{:>12}{:>12}\n", tally.calls, tally.mismatches);
            }
        }
        text + &format!(
            "{:<60}{:>12}\n{:<60}{:>12}\n",
            "gossip evictions in a tie, brought together",
            self.ties,
            "snapshots written, read, asked and damaged",
            self.snapshots()
        )
    }

    /// The answers of each operation in hundredths, and the events.
    pub fn distribution(&self) -> String {
        let mut text = String::new();
        for (kind, tallies) in &self.operations {
            for (name, tally) in kind.operations().iter().zip(tallies) {
                let name = format!("{}: {name}", kind.name());
                text += &format!("{name:<60}{:>12}", tally.calls);
                for (place, count) in tally.answers.iter().enumerate() {
                    if *count > 0 {
                        let number = if place < 8 { place } else { place + 248 };
                        let answer = Answer::plain(number as u32).text();
                        let percent = 100.0 * *count as f64 / tally.calls as f64;
                        text += &format!("  {answer} {percent:.2}%");
                    }
                }
                text += "\n";
            }
        }
        text += "what calls on peers and on gossip did:\n";
        for (name, count) in EVENTS.iter().zip(self.events) {
            text += &format!("  {name:<42}{count:>12}\n");
        }
        let outside = [
            ("refusal 4 (outside the Rust)", self.refusal_4),
            ("refusal 5 (outside the Rust)", self.refusal_5),
            ("gossip eviction in a tie", self.ties),
        ];
        for (name, count) in outside {
            text += &format!("  {name:<42}{count:>12}\n");
        }
        text
    }
}
