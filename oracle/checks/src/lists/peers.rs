//! The list of peers: policies over lent memory, driven call by call, answered by the unchanged Rust.
//!
//! Each trace makes a policy, sets any sound state on it or none, and makes calls; then it damages the memory in known ways, each
//! before a call that must refuse it; then come two makings that must be refused. A line is the answer, the messages and bytes in
//! flight, the rows, and a checksum of the settings and of every lent byte.

use super::checksum::{made_up, with_bytes, with_shorts, with_words};
use super::List;
use crate::both_sides::meets_refusal_4;
use crate::calls::peers::{begin, Plan};
use crate::calls::refusals;
use crate::damage::{damage_peers, Damage, MAKING_DAMAGE, PEER_DAMAGE};
use crate::dice::Dice;
use crate::trace::Trace;
use vocabulary::layout::{self, ROW};
use vocabulary::{
    answer, cause, Answer, Key, Original, PeerCall, PeerOperation as P, PeerState, Record, Settings, Words,
};

const SEED: u64 = 20_261_115;
/// The memory of the replaying program, of which a part is lent.
const MEMORY: usize = 2_304;
/// Rows of the largest table.
const MOST_ROWS: u64 = 16;
const TRACES: u64 = 40;
const MOST_CALLS: usize = 40;
/// Damages after a trace's calls.
const DAMAGES: u64 = 4;

// The numbers of the records; a call's is its operation's, from FIRST_CALL on.
const SETTINGS: u64 = 0;
const MAKE: u64 = 1;
const FIRST_CALL: u64 = 2;
const WRITE: u64 = 9;
const SET: u64 = 10;

pub fn record(original: &mut dyn Original) -> List {
    // with_limits(0, 0, 0), over no memory
    let nothing = Settings {
        max_tracked: 1,
        max_messages: 0,
        max_bytes: 0,
        ..original.default_settings()
    };
    let mut recorder = Recorder {
        original,
        list: List::new(),
        held: Held {
            record: Record::of(&PeerState::fresh(nothing)),
            memory: vec![0; MEMORY],
            lent: 0,
        },
    };
    let mut number = 0;
    for _ in 0..TRACES {
        recorder.trace(next_small(&mut number));
    }
    recorder.list
}

/// A trace without calls on a small table, how many it should have, and what makes them.
struct Small {
    trace: Trace,
    length: usize,
    plan: Plan,
    dice: Dice,
}

fn next_small(number: &mut u64) -> Small {
    loop {
        let mut dice = Dice::new(SEED + *number);
        *number += 1;
        let (trace, length, plan) = begin(&mut dice);
        if trace.start.settings[6] <= MOST_ROWS {
            return Small {
                trace,
                length,
                plan,
                dice,
            };
        }
    }
}

/// What the replaying program should hold.
#[derive(Clone, PartialEq)]
struct Held {
    record: Record,
    memory: Vec<u8>,
    lent: usize,
}

impl Held {
    /// The numbers behind each answer.
    fn text(&self) -> String {
        let (longs, shorts) = (&self.record.longs, &self.record.shorts);
        let sum = checksum(&self.record, &self.memory[..self.lent]);
        format!("{} {} {} {sum}", shorts[3], longs[6], longs[7])
    }
}

struct Recorder<'a> {
    original: &'a mut dyn Original,
    list: List,
    held: Held,
}

impl Recorder<'_> {
    fn tell(&mut self, words: &[u64], answer: &str) {
        let mut record = [0; 8];
        record[..words.len()].copy_from_slice(words);
        self.list.add(&record, &format!("{answer} {}", self.held.text()));
    }

    fn trace(&mut self, small: Small) {
        let Small {
            trace,
            length,
            mut plan,
            mut dice,
        } = small;
        let mut state = trace.peer_state().expect("a sound start");
        let filler = trace.start.filler;
        let lent = ROW * state.settings.row_limit() as usize + trace.start.spare as usize;
        self.make(&state.settings, lent, filler, None);
        self.set_state(&state);
        self.original.set_peers(&state);
        for _ in 0..length.min(MOST_CALLS) {
            let words = plan.next(&mut dice, &state, &trace.keys);
            self.call(&mut state, &call_of(&words, &trace.keys));
        }
        for _ in 0..DAMAGES {
            let words = refusals::next_peer(&mut dice, &trace);
            self.refuse(&state, &words, &trace.keys);
        }
        for damage in MAKING_DAMAGE..PEER_DAMAGE.len() {
            let mut words = refusals::next_peer(&mut dice, &trace);
            words[0] = damage as u64;
            self.refuse_making(&state, &words, filler);
        }
    }

    /// Memory full of anything, and the making of a policy on a part of it.
    fn make(&mut self, settings: &Settings, lent: usize, filler: u64, refusal: Option<u32>) {
        let [interval, burst, rate, burst_bytes, threshold, duration, tracked, messages, bytes] = settings.words();
        let first = [
            SETTINGS,
            interval,
            burst,
            rate,
            burst_bytes,
            threshold,
            duration,
            tracked,
        ];
        self.tell(&first, "-");
        self.held.memory = made_up(MEMORY, &mut { filler });
        self.held.lent = lent;
        let answer = match refusal {
            Some(number) => Answer::plain(number),
            None => {
                self.held.record = Record::of(&PeerState::fresh(*settings));
                self.held.memory[..ROW * settings.row_limit() as usize].fill(0);
                Answer::done()
            }
        };
        self.tell(&[MAKE, messages, bytes, lent as u64, filler], &text(&answer));
    }

    fn set_state(&mut self, state: &PeerState) {
        let mut held = self.held.clone();
        layout::lay(&mut held.memory, 0, state);
        held.record = Record::of(state);
        self.set(held);
    }

    /// Writes what differs, word by word, then the policy's numbers and how much is lent.
    fn set(&mut self, after: Held) {
        for place in (0..MEMORY).step_by(8) {
            let word: [u8; 8] = after.memory[place..place + 8].try_into().unwrap();
            if self.held.memory[place..place + 8] != word {
                self.held.memory[place..place + 8].copy_from_slice(&word);
                self.tell(&[WRITE, place as u64, u64::from_le_bytes(word)], "-");
            }
        }
        if self.held != after {
            self.held = after;
            let Record { longs, shorts } = self.held.record;
            let numbers = [
                SET,
                shorts[3].into(),
                longs[6],
                longs[7],
                longs[4],
                self.held.lent as u64,
            ];
            self.tell(&numbers, "-");
        }
    }

    fn call(&mut self, state: &mut PeerState, call: &PeerCall) {
        let mut answer = self.original.peers(call);
        if answer.number == answer::ALLOW && meets_refusal_4(state, call.bytes) {
            answer = Answer::plain(4);
            self.original.set_peers(state);
        }
        let rows_before = state.rows.len();
        self.original.read_peers(state);
        layout::lay(&mut self.held.memory, rows_before, state);
        self.held.record = Record::of(state);
        self.tell_call(call, &answer);
    }

    fn tell_call(&mut self, call: &PeerCall, answer: &Answer) {
        let text = match call.operation {
            P::Admit if !answer.is_refusal() => cause::text(answer.cause()),
            P::InFlight if !answer.is_refusal() => format!("{} {}", answer.values[0], answer.values[1]),
            P::HeldTime if !answer.is_refusal() => answer.values[0].to_string(),
            _ => text(answer),
        };
        self.tell(&words_of(call), &text);
    }

    /// Damages the memory, makes a call that must refuse it, and undoes the damage.
    fn refuse(&mut self, state: &PeerState, words: &Words, keys: &[Key]) {
        let mut call = call_of(words, keys);
        call.operation = P::ALL[words[4] as usize % P::ALL.len()];
        let before = self.held.clone();
        match self.damaged(state, words) {
            None | Some((Damage::Making(_), _)) => {}
            Some((Damage::Table, _)) if !call.operation.uses_key() => {}
            Some((_, after)) => {
                self.set(after);
                self.tell_call(&call, &Answer::plain(3));
                self.set(before);
            }
        }
    }

    fn refuse_making(&mut self, state: &PeerState, words: &Words, filler: u64) {
        if let Some((Damage::Making(number), after)) = self.damaged(state, words) {
            let mut settings = state.settings;
            settings.max_tracked = after.record.longs[4];
            self.make(&settings, after.lent, filler, Some(number));
        }
    }

    fn damaged(&self, state: &PeerState, words: &Words) -> Option<(Damage, Held)> {
        let mut after = self.held.clone();
        let mut table = after.memory[..after.lent].to_vec();
        let damage = damage_peers(words, state, &mut after.record, &mut table)?;
        after.lent = table.len();
        after.memory[..table.len()].copy_from_slice(&table);
        Some((damage, after))
    }
}

/// Words: the operation, the key's place, bytes, now.
fn call_of(words: &Words, keys: &[Key]) -> PeerCall {
    PeerCall {
        operation: P::ALL[words[0] as usize % P::ALL.len()],
        key: keys[words[1] as usize],
        bytes: words[2],
        now: words[3],
    }
}

/// The operation, bytes, now, and the key in the last five words.
fn words_of(call: &PeerCall) -> Words {
    let mut key = [0; 40];
    key[..33].copy_from_slice(&call.key);
    let mut words = [FIRST_CALL + call.operation as u64, call.bytes, call.now, 0, 0, 0, 0, 0];
    for (word, bytes) in words[3..].iter_mut().zip(key.chunks_exact(8)) {
        *word = u64::from_le_bytes(bytes.try_into().unwrap());
    }
    words
}

fn text(answer: &Answer) -> String {
    match answer.number {
        answer::YES => "1".into(),
        answer::NO => "0".into(),
        answer::DONE => "-".into(),
        _ => answer.text(),
    }
}

fn checksum(record: &Record, lent: &[u8]) -> u64 {
    let Record { longs, shorts } = record;
    let settings = with_shorts(with_words(0, &longs[..6]), &shorts[..3]);
    with_bytes(settings, lent)
}
