//! Snapshots in the middle of a trace on peers: written of the Rust's state, read back into a table that holds anything, and gone on with.

use super::{filled, BothSides};
use crate::damage::damage_peers;
use crate::snapshots::damage::{harmed, Demand, Harmed, NAMES, READING};
use crate::snapshots::{asks, form, PLACE, READ, ROW_AT, WALK, WRITE};
use crate::tally::{Event, Tally};
use vocabulary::layout::ROW;
use vocabulary::peer::*;
use vocabulary::{answer, Answer, Snapshots, Words};

/// Kinds that are asked for of every damaged snapshot, besides one that is made up.
const KINDS: [u32; 5] = [0, 1, 2, 3, 4];

/// Ways to make a policy or its table unsound (`damage_peers`).
const UNSOUND_WAYS: u64 = 13;

impl BothSides<'_> {
    fn snapshots(&self) -> &dyn Snapshots {
        self.port.snapshots().expect("a port with snapshots")
    }

    /// Words of an operation on snapshots: its number, 0, the operand, and the seed of what is lent.
    pub(super) fn step_snapshots(&mut self, words: &Words, tally: &mut Tally) -> Result<(), String> {
        let [operation, _, operand, filler, ..] = *words;
        if operation < WRITE {
            return self.step_peers(words, tally);
        }
        let snapshot = form::written(&self.state);
        self.expect(operation, expected_of(words, &snapshot), tally);
        let port = self.snapshots();
        match operation {
            WRITE => self.write(&snapshot, operand as usize, filler)?,
            READ => return self.read(&snapshot, operand as usize, filler, tally),
            PLACE => asks::place(port, &snapshot, operand as u32, filler)?,
            ROW_AT => asks::row(port, &snapshot, operand, filler)?,
            WALK => asks::walk(port, &snapshot, &self.state.rows)?,
            other => panic!("no operation {other} on snapshots"),
        }
        self.compare_peers()
    }

    /// Into an output that is so much longer.
    fn write(&self, snapshot: &[u8], spare: usize, filler: u64) -> Result<(), String> {
        let output = filled(snapshot.len() + spare, filler);
        asks::write(self.snapshots(), (&self.record, &self.table), output, Ok(snapshot))
    }

    /// Into a record and a table that hold anything, with which the trace goes on; then what was read is written again.
    fn read(&mut self, snapshot: &[u8], spare: usize, filler: u64, tally: &mut Tally) -> Result<(), String> {
        watch(&self.state, tally);
        let length = ROW * self.state.settings.row_limit() as usize + spare;
        let (mut record, mut table) = (asks::any_record(filler), filled(length, filler));
        let expected = Ok(self.state.clone());
        asks::read(self.snapshots(), (&mut record, &mut table), snapshot, &expected)?;
        self.record = record;
        self.expected.clone_from(&table);
        self.table = table;
        self.write(snapshot, 0, filler ^ 1)
    }

    /// A damaged snapshot, or a policy that can't be written. Words: the sort, 0, and what chooses (`harmed`); word 3 is the seed of
    /// what is lent.
    pub(super) fn step_snapshot_refusal(&mut self, words: &Words, tally: &mut Tally) -> Result<(), String> {
        if words[0] >= READING {
            return self.refuse_writing(words, tally);
        }
        let state = self.state.clone();
        let Some(harmed) = harmed(words, &state) else {
            return Ok(());
        };
        let expected = form::read(&harmed.snapshot, harmed.table);
        let answer = expected.as_ref().err().map_or(answer::DONE, |number| *number);
        self.expect(words[0], Answer::plain(answer), tally);
        is_demanded(words, &harmed, answer)?;
        self.read_harmed(&harmed, &expected, words[3])?;
        self.ask_harmed(&harmed.snapshot, words)
    }

    fn read_harmed(&self, harmed: &Harmed, expected: &Result<PeerState, u32>, filler: u64) -> Result<(), String> {
        let port = self.snapshots();
        let (mut record, mut table) = (asks::any_record(filler), filled(harmed.table, filler));
        asks::read(port, (&mut record, &mut table), &harmed.snapshot, expected)?;
        if expected.is_err() {
            return Ok(());
        }
        let output = filled(harmed.snapshot.len() + 1, filler);
        asks::write(port, (&record, &table), output, Ok(&harmed.snapshot))
    }

    /// The layout alone is judged where a snapshot is asked.
    fn ask_harmed(&self, snapshot: &[u8], words: &Words) -> Result<(), String> {
        let (port, filler) = (self.snapshots(), words[3]);
        let made_up = [words[5] as u32, 0x1_0000 | (words[5] % 4) as u32];
        for kind in KINDS.into_iter().chain(made_up) {
            asks::place(port, snapshot, kind, filler)?;
        }
        let near = [0, 1, ROW as u64, words[5] % 300];
        let end = snapshot.len() as u64;
        for by in near {
            asks::row(port, snapshot, form::ROWS_AT as u64 + by, filler)?;
            asks::row(port, snapshot, end.wrapping_sub(by), filler)?;
        }
        asks::row(port, snapshot, words[5], filler)
    }

    /// Written of an unsound policy, or to an output that is too short, or both.
    fn refuse_writing(&mut self, words: &Words, tally: &mut Tally) -> Result<(), String> {
        let (is_unsound, is_short) = match words[0] - READING {
            0 => (true, false),
            1 => (false, true),
            _ => (true, true),
        };
        let (mut record, mut table) = (self.record, self.table.clone());
        if is_unsound {
            let way = [words[2] % UNSOUND_WAYS, 0, 0, 0, 0, words[5], 0, 0];
            if damage_peers(&way, &self.state, &mut record, &mut table).is_none() {
                return Ok(());
            }
        }
        let whole = form::written(&self.state).len();
        let length = match (is_short, words[5] % 3) {
            (false, _) => whole + words[6] as usize,
            (true, 0) => words[2] as usize % whole,
            (true, _) => whole - 1,
        };
        let refusal = if is_unsound { form::UNSOUND } else { form::TOO_SHORT };
        self.expect(words[0], Answer::plain(refusal), tally);
        let output = filled(length, words[3]);
        asks::write(self.snapshots(), (&record, &table), output, Err(refusal))
    }
}

/// What is special about a state that is read.
fn watch(state: &PeerState, tally: &mut Tally) {
    let events = [
        (state.rows.is_empty(), Event::SnapshotWithoutRows),
        (state.rows.len() == 1_024, Event::SnapshotOfMostRows),
        (state.settings.max_tracked == 0, Event::SnapshotOfLimit0),
    ];
    for (_, event) in events.into_iter().filter(|(happened, _)| *happened) {
        tally.event(event);
    }
}

/// The answer to be counted.
fn expected_of(words: &Words, snapshot: &[u8]) -> Answer {
    let number = match words[0] {
        PLACE => form::place_of(snapshot, words[2] as u32).err(),
        ROW_AT => match form::row_at(snapshot, words[2]) {
            Ok(None) => Some(answer::NO),
            Ok(_) => None,
            Err(refusal) => Some(refusal),
        },
        _ => None,
    };
    Answer::plain(number.unwrap_or(answer::DONE))
}

/// What the damage demands and what is judged agree: else the oracle is wrong.
fn is_demanded(words: &Words, harmed: &Harmed, judged: u32) -> Result<(), String> {
    let demanded = match harmed.demand {
        Demand::Read => answer::DONE,
        Demand::Refused(number) => number,
        Demand::Judged => judged,
    };
    if demanded == judged {
        return Ok(());
    }
    let name = NAMES[words[0] as usize];
    Err(format!(
        "the oracle disagrees with itself: {name} demands {demanded}, judged is {judged}"
    ))
}
