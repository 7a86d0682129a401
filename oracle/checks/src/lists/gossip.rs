//! The list of gossip: ban trackers, limiters and gossip states over lent memory, driven call by call through the C boundary's three
//! functions, answered by the unchanged Rust.
//!
//! The replaying program holds two memories of 96,560 bytes, of each of which a part from its beginning is lent; the words that cross
//! the boundary (ten longs, six shorts); a peer's 33 bytes and an out point's 36. At first all of it is 0 and nothing is lent. A record is
//! eight little-endian u64, of which the first is its number (words that are not named are 0):
//!
//! | number | words | what it does |
//! |---|---|---|
//! | 0 | filler, first length, second length | fills both memories, the first one first, from one stream: a sum begins as the filler, and before each byte becomes `step(sum, 7)`; the byte is its lowest one. Then so many bytes of each are lent, and all longs, shorts, the peer and the out point become 0 |
//! | 1 | seven longs | become longs 0 to 6 |
//! | 2 | three longs, three words | become longs 7 to 9; each of the last three words is two shorts, the first of them its low half: shorts 0 to 5 |
//! | 3 | five words | the peer: the first 33 of their 40 bytes, each word little-endian |
//! | 4 | five words | the out point: the first 36 of their 40 bytes |
//! | 5 | subject, operation, violation, bytes, now, side | a call: subject 0 is `uglezmir_bans`, 1 `uglezmir_limiter`, 2 `uglezmir_gossip`; the first two get longs 0 to 2, short 0 and the first memory's lent bytes, and what they leave there goes back. `value` is 0 before it |
//! | 6 | memory (0 or 1), place, word | the word's eight bytes are written at that place |
//! | 7 | memory, count, key bytes, four numbers | rows from the memory's beginning: that of place p has a key of so many bytes, the first two of them p with its high byte first, the others 0; then the numbers, little-endian, four behind 33 key bytes and three behind 70 |
//! | 8 | first length, second length | so many bytes are lent from now on |
//!
//! The line of a call is `ANSWER VALUE ROWS OUTBOUND CHECKSUM`: the number that the function answers, `value` after it, longs 2 and 8, and
//! a checksum of all longs, all shorts and every lent byte of both memories after the call. Every other record's line is `-`. The checksum
//! is a sum that begins at 0: for each long `step` with its low half and then with its high half, for each short `step`, then `step` for
//! each lent byte, the first memory's and then the second's; `step(sum, n)` is (257 x sum + n + 1) mod (2^55 - 55).
//!
//! Each trace begins in any sound state; after its calls the memory is damaged in known ways, each before a call that must refuse it, and
//! mended. The last three traces have 1,024 rows.

use super::checksum::{made_up, with_bytes, with_shorts, with_words};
use super::List;
use crate::calls::gossip::{begin, Plan};
use crate::calls::refusals;
use crate::dice::Dice;
use crate::gossip::call_of;
use crate::gossip::damage::{damaged, Harmed};
use crate::gossip::sides::{with_operation, GossipSides, Lent};
use crate::gossip::start::GossipStart;
use crate::trace::{Kind, Trace};
use vocabulary::gossip::*;
use vocabulary::{Answer, GossipCall, GossipWords, LongKey, Original, Subject, Words};

const SEED: u64 = 20_261_116;
/// Each of the two memories of the replaying program.
const MEMORY: usize = 96_560;
/// Rows of the largest table that is written word by word.
const MOST_WRITTEN: u64 = 3;
const MOST_CALLS: usize = 24;
/// Damages after a trace's calls.
const DAMAGES: u64 = 5;

/// Traces on each subject, and the kinds that make them.
const TRACES: [(Subject, Kind, Kind, u64); 3] = [
    (Subject::Bans, Kind::Bans, Kind::BanRefusals, 18),
    (Subject::Limiter, Kind::Limiter, Kind::LimiterRefusals, 14),
    (Subject::Gossip, Kind::Gossip, Kind::GossipRefusals, 18),
];

// The numbers of the records.
const LEND: u64 = 0;
const LONGS: u64 = 1;
const MORE: u64 = 2;
const PEER: u64 = 3;
const OUTPOINT: u64 = 4;
const CALL: u64 = 5;
const WRITE: u64 = 6;
const FILL_ROWS: u64 = 7;
const LENGTHS: u64 = 8;

pub fn record(original: &mut dyn Original) -> List {
    let mut recorder = Recorder {
        original,
        list: List::new(),
        held: Held::new(0, [0; 2]),
    };
    for (subject, kind, refusals, traces) in TRACES {
        let mut number = 0;
        for _ in 0..traces {
            recorder.trace(next_small(subject, kind, &mut number), subject, refusals);
        }
    }
    for subject in [Subject::Bans, Subject::Limiter, Subject::Gossip] {
        recorder.full_trace(subject);
    }
    recorder.list
}

/// A trace without calls on small tables, how many it should have, and what makes them.
struct Small {
    trace: Trace,
    length: usize,
    plan: Plan,
    dice: Dice,
}

fn next_small(subject: Subject, kind: Kind, number: &mut u64) -> Small {
    loop {
        let mut dice = Dice::new(SEED + *number);
        *number += 1;
        let (trace, length, plan) = begin(&mut dice, kind, subject);
        if trace.gossip.longs[LIMIT] <= MOST_WRITTEN {
            return Small {
                trace,
                length,
                plan,
                dice,
            };
        }
    }
}

/// What the replaying program should hold.
struct Held {
    words: GossipWords,
    memory: [Vec<u8>; 2],
    lent: [usize; 2],
    key: LongKey,
}

impl Held {
    fn new(filler: u64, lent: [usize; 2]) -> Self {
        let mut seed = filler;
        let mut fill = || made_up(MEMORY, &mut seed);
        Self {
            words: GossipWords::default(),
            memory: [fill(), fill()],
            lent,
            key: [0; 70],
        }
    }
}

struct Recorder<'a> {
    original: &'a mut dyn Original,
    list: List,
    held: Held,
}

impl Recorder<'_> {
    fn tell(&mut self, words: &[u64], line: &str) {
        let mut record = [0; 8];
        record[..words.len()].copy_from_slice(words);
        self.list.add(&record, line);
    }

    fn trace(&mut self, small: Small, subject: Subject, refusals: Kind) {
        let Small {
            mut trace,
            length,
            mut plan,
            mut dice,
        } = small;
        let mut sides = self.lend(subject, &trace.gossip);
        self.set(sides.lent());
        for _ in 0..length.min(MOST_CALLS) {
            let words = plan.next(&mut dice, sides.state(), &trace.gossip.keys);
            self.call(&mut sides, &words);
        }
        trace.kind = refusals;
        for _ in 0..DAMAGES {
            let words = refusals::next_gossip(&mut dice, &trace);
            self.refuse(&sides, &words, &trace.gossip.keys);
        }
    }

    /// 1,024 rows that are alike but for their keys, and calls that meet a full table.
    fn full_trace(&mut self, subject: Subject) {
        let full = full_start(subject);
        let mut sides = self.lend(subject, &full.gossip);
        let table = subject.shapes().len() - 1;
        let numbers = full.gossip.rows[table][0].1;
        let shape = &subject.shapes()[table];
        shape.lay(&mut self.held.memory[table], 0, &sides.state().rows[table]);
        let mut rows = vec![FILL_ROWS, table as u64, MOST_ROWS, shape.key as u64];
        rows.extend(numbers);
        self.tell(&rows, "-");
        self.set(sides.lent());
        for words in full.calls {
            self.call(&mut sides, &words);
        }
    }

    /// Memory full of anything, of which so much is lent as a start says.
    fn lend(&mut self, subject: Subject, start: &GossipStart) -> GossipSides {
        let state = start.state(subject).expect("a sound start");
        let lengths = start.lengths(subject, &state);
        self.held = Held::new(start.filler, lengths);
        self.tell(&[LEND, start.filler, lengths[0] as u64, lengths[1] as u64], "-");
        let memory = &self.held.memory;
        let tables = [memory[0][..lengths[0]].to_vec(), memory[1][..lengths[1]].to_vec()];
        GossipSides::begin_on(subject, start, tables, self.original).expect("a sound start")
    }

    /// Writes what differs, word by word, then the words and how much is lent.
    fn set(&mut self, lent: &Lent) {
        for memory in 0..2 {
            let mut after = self.held.memory[memory].clone();
            after[..lent.tables[memory].len()].copy_from_slice(&lent.tables[memory]);
            for place in (0..MEMORY).step_by(8) {
                let word: [u8; 8] = after[place..place + 8].try_into().unwrap();
                if self.held.memory[memory][place..place + 8] != word {
                    self.held.memory[memory][place..place + 8].copy_from_slice(&word);
                    self.tell(&[WRITE, memory as u64, place as u64, u64::from_le_bytes(word)], "-");
                }
            }
        }
        let lengths = [lent.tables[0].len(), lent.tables[1].len()];
        if self.held.lent != lengths {
            self.held.lent = lengths;
            self.tell(&[LENGTHS, lengths[0] as u64, lengths[1] as u64], "-");
        }
        self.set_words(&lent.words);
    }

    fn set_words(&mut self, words: &GossipWords) {
        let before = std::mem::replace(&mut self.held.words, *words);
        let GossipWords { longs, shorts } = words;
        if before.longs[..7] != longs[..7] {
            let mut record = vec![LONGS];
            record.extend(&longs[..7]);
            self.tell(&record, "-");
        }
        if before.longs[7..] != longs[7..] || before.shorts != *shorts {
            let mut record = vec![MORE];
            record.extend(&longs[7..]);
            let pair = |pair: &[u32]| u64::from(pair[0]) | u64::from(pair[1]) << 32;
            record.extend(shorts.chunks_exact(2).map(pair));
            self.tell(&record, "-");
        }
    }

    fn set_key(&mut self, call: &GossipCall) {
        let before = std::mem::replace(&mut self.held.key, call.key);
        if before[..33] != call.key[..33] {
            self.tell(&five_words(PEER, &call.peer()), "-");
        }
        if call.subject == Subject::Limiter && before[33..69] != call.key[33..69] {
            self.tell(&five_words(OUTPOINT, &call.outpoint()), "-");
        }
    }

    fn call(&mut self, sides: &mut GossipSides, words: &Words) {
        let call = sides.call(words);
        let (answer, given, left) = sides.record(words, self.original);
        self.set_words(&given);
        self.set_key(&call);
        self.held.words = left.words;
        for memory in 0..2 {
            self.held.memory[memory][..left.tables[memory].len()].copy_from_slice(&left.tables[memory]);
        }
        self.tell_call(&call, &answer);
    }

    fn tell_call(&mut self, call: &GossipCall, answer: &Answer) {
        let record = [
            CALL,
            call.subject as u64,
            call.operation.into(),
            call.violation.into(),
            call.bytes,
            call.now,
            call.side.into(),
        ];
        let Held {
            words, memory, lent, ..
        } = &self.held;
        let [rows, outbound] = [words.longs[ROWS], words.longs[OUTBOUND_ROWS]];
        let sum = checksum(words, [&memory[0][..lent[0]], &memory[1][..lent[1]]]);
        let line = format!("{} {} {rows} {outbound} {sum}", answer.number, answer.values[0]);
        self.tell(&record, &line);
    }

    /// Damages the memory or the words, makes a call that must refuse them, and undoes the damage.
    fn refuse(&mut self, sides: &GossipSides, words: &Words, keys: &[LongKey]) {
        let mut call = call_of(sides.subject, keys, &with_operation(words, sides.subject));
        let mut lent = sides.lent().clone();
        if let Some(Harmed::Refused(number)) = damaged(words, sides.state(), &mut call, &mut lent) {
            for memory in 0..2 {
                // Where more is lent than before, it is what the memory holds.
                let before = sides.lent().tables[memory].len().min(lent.tables[memory].len());
                let after = lent.tables[memory].len();
                lent.tables[memory][before..].copy_from_slice(&self.held.memory[memory][before..after]);
            }
            self.set(&lent);
            self.set_key(&call);
            self.tell_call(&call, &Answer::plain(number));
            self.set(sides.lent());
        }
    }
}

/// A start with a full table of rows that are alike, and calls on it.
fn full_start(subject: Subject) -> Trace {
    let mut trace = Trace::of_calls(Kind::Gossip, Vec::new());
    let start = &mut trace.gossip;
    let key = |place: u64| {
        let mut key = [0; 70];
        (key[0], key[1]) = ((place >> 8) as u8, place as u8);
        key
    };
    start.keys = (0..MOST_ROWS + 2).map(key).collect();
    start.filler = SEED;
    let (numbers, operations): ([u64; 4], &[u64]) = match subject {
        Subject::Bans => {
            (start.longs[PERIOD], start.shorts[MOST]) = (1_000, 100);
            ([25, 0, 0, 500], &[3, 3, 3, 7, 4, 5, 3, 6])
        }
        Subject::Limiter => {
            (start.longs[PERIOD], start.shorts[MOST]) = (1_000, 2);
            ([0, 0, 500, 0], &[3, 3, 4, 3])
        }
        Subject::Gossip => {
            (start.longs[PERIOD], start.shorts[MOST]) = (1_000, 100);
            [start.longs[GLOBAL_RATE], start.longs[GLOBAL_BURST]] = [1_000, 1_000];
            [start.longs[PEER_RATE], start.longs[PEER_BURST]] = [1_000, 500];
            start.shorts[GLOBAL_SIGN + 1] = 900;
            ([1, 7, 0, 400], &[6, 9, 10, 7, 11, 8, 9, 6, 10])
        }
    };
    start.longs[LIMIT] = MOST_ROWS;
    let table = subject.shapes().len() - 1;
    start.rows[table] = (0..MOST_ROWS as usize).map(|place| (place, numbers)).collect();
    // Where nothing has expired and no bucket is full, where buckets have earned something, and where all rows may go.
    let (absent, last) = (MOST_ROWS, MOST_ROWS - 1);
    for (place, now) in [(absent, 600), (0, 1_300), (absent + 1, 2_000)] {
        for (at, operation) in operations.iter().enumerate() {
            // The peer whose outbound row goes is another one, which leaves it to the absent one.
            let removes = (subject, *operation) == (Subject::Gossip, 8);
            let place = if removes { last } else { place };
            trace
                .calls
                .push([operation - 1, place, 2, 10, now + at as u64, 0, 0, 0]);
        }
    }
    trace
}

fn five_words(number: u64, bytes: &[u8]) -> [u64; 6] {
    let mut padded = [0; 40];
    padded[..bytes.len()].copy_from_slice(bytes);
    let mut words = [number, 0, 0, 0, 0, 0];
    for (word, bytes) in words[1..].iter_mut().zip(padded.chunks_exact(8)) {
        *word = u64::from_le_bytes(bytes.try_into().unwrap());
    }
    words
}

fn checksum(words: &GossipWords, lent: [&[u8]; 2]) -> u64 {
    let sum = with_shorts(with_words(0, &words.longs), &words.shorts);
    with_bytes(with_bytes(sum, lent[0]), lent[1])
}
