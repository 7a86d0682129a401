//! Both sides in the middle of a trace on gossip: each call is run on both, and everything is compared after it. `damaged` is about calls
//! on damaged states.

mod damaged;

pub use damaged::with_operation;

use super::making::{limit_of, making_refused, takes_limit, with_anything_unread};
use super::watch::watch;
use super::{call_of, meets_refusal_5, ties};
use crate::both_sides::{filled, same_answer};
use crate::gossip::start::GossipStart;
use crate::show;
use crate::tally::Tally;
use vocabulary::gossip::*;
use vocabulary::{Answer, GossipCall, GossipState, GossipWords, Original, Port, Reads, Subject, Words};

/// The Rust's limit where none is given; the port's is 1,024.
const DEFAULT_LIMIT: u64 = 50_000;

/// The words and the tables that the port is lent.
#[derive(Clone, Debug, Default, PartialEq, Eq)]
pub struct Lent {
    pub words: GossipWords,
    pub tables: [Vec<u8>; 2],
}

pub struct GossipSides {
    pub subject: Subject,
    start: GossipStart,
    /// What the Rust holds now, and held before the last call; a limit of 0 stands here as 0.
    state: GossipState,
    before: GossipState,
    lent: Lent,
    /// The tables as they should be: the Rust's rows laid out, other bytes as they were.
    expected: [Vec<u8>; 2],
}

impl GossipSides {
    pub fn begin(subject: Subject, start: &GossipStart, original: &mut dyn Original) -> Option<Self> {
        let lengths = start.lengths(subject, &start.state(subject)?);
        let tables = lengths.map(|length| filled(length, start.filler));
        Self::begin_on(subject, start, tables, original)
    }

    /// On tables that hold anything.
    pub fn begin_on(
        subject: Subject,
        start: &GossipStart,
        mut tables: [Vec<u8>; 2],
        original: &mut dyn Original,
    ) -> Option<Self> {
        let state = start.state(subject)?;
        original.set_gossip(subject, &state);
        for (table, shape) in subject.shapes().iter().enumerate() {
            shape.lay(&mut tables[table], 0, &state.rows[table]);
        }
        Some(Self {
            subject,
            start: start.clone(),
            before: state.clone(),
            lent: Lent {
                words: state.words,
                tables: tables.clone(),
            },
            expected: tables,
            state,
        })
    }

    pub fn state(&self) -> &GossipState {
        &self.state
    }

    pub fn call(&self, words: &Words) -> GossipCall {
        call_of(self.subject, &self.start.keys, words)
    }

    /// One call on both sides; what it should answer goes to `expect`. The error says how they differ.
    pub fn step(
        &mut self,
        words: &Words,
        original: &mut dyn Original,
        port: &dyn Port,
        tally: &mut Tally,
        expect: &mut dyn FnMut(Answer, &mut Tally),
    ) -> Result<(), String> {
        let call = self.call(words);
        let answer = self.step_rust(words, original, tally)?;
        expect(answer, tally);
        if tally.watch {
            watch(&self.before, &self.state, &call, &answer, tally);
        }
        let given = self.lent.words;
        let answered = self.port(port, &call);
        same_answer(answer, answered)?;
        if answer.is_refusal() {
            if self.lent.words != given {
                return Err("a refused call changed the words".into());
            }
            self.lent.words = self.state.words;
        }
        self.compare()
    }

    /// The Rust's part of a call: what it answers, or the refusal that is known. The words that are lent are then those that the port
    /// is to be given.
    fn step_rust(&mut self, words: &Words, original: &mut dyn Original, tally: &mut Tally) -> Result<Answer, String> {
        let call = self.call(words);
        match call.reads() {
            Reads::Making => self.make(&call, original, words[6]),
            _ => self.ask(&call, original, tally),
        }
    }

    /// A call without a port, for a recorded list: the answer, what is given, and what must be left.
    pub fn record(&mut self, words: &Words, original: &mut dyn Original) -> (Answer, GossipWords, Lent) {
        let answer = self.step_rust(words, original, &mut Tally::default());
        let answer = answer.expect("the Rust as published");
        let given = std::mem::replace(&mut self.lent.words, self.state.words);
        self.lent.tables = self.expected.clone();
        let mut left = self.lent.clone();
        if answer.is_refusal() {
            left.words = given;
        }
        (answer, given, left)
    }

    pub fn lent(&self) -> &Lent {
        &self.lent
    }

    fn port(&mut self, port: &dyn Port, call: &GossipCall) -> Answer {
        let [first, second] = &mut self.lent.tables;
        port.gossip(call, &mut self.lent.words, [first, second])
    }

    /// The Rust's part of a call that makes nothing.
    fn ask(&mut self, call: &GossipCall, original: &mut dyn Original, tally: &mut Tally) -> Result<Answer, String> {
        let mut answer = original.gossip(call);
        if meets_refusal_5(&self.state, call, &answer) {
            // Outside the Rust's domain: it made a row more. The port must refuse and leave all as found.
            answer = Answer::plain(5);
            tally.refusal_5 += 1;
            original.set_gossip(self.subject, &self.state);
        }
        self.read(original)?;
        let tied = ties::tied(&self.before, call);
        if !tied.is_empty() {
            tally.ties += 1;
            if ties::bring_together(&tied, &self.before, &mut self.state) {
                original.set_gossip(self.subject, &self.state);
            }
        }
        self.lay();
        Ok(answer)
    }

    /// What the Rust holds after a call. It keeps a limit of 0 as 1, the port keeps it as it is.
    fn read(&mut self, original: &dyn Original) -> Result<(), String> {
        std::mem::swap(&mut self.state, &mut self.before);
        self.state.words = self.before.words;
        original.read_gossip(self.subject, &mut self.state);
        let limit = self.state.words.longs[LIMIT];
        if limit != self.before.words.row_limit(0) {
            return Err(format!("the Rust's limit is {limit}"));
        }
        self.state.words.longs[LIMIT] = self.before.words.longs[LIMIT];
        Ok(())
    }

    fn lay(&mut self) {
        for (table, shape) in self.subject.shapes().iter().enumerate() {
            if self.state.rows[table].len() as u64 <= self.state.words.row_limit(table) {
                let rows_before = self.before.rows[table].len();
                shape.lay(&mut self.expected[table], rows_before, &self.state.rows[table]);
            }
        }
    }

    /// The Rust's part of a making call: what it reads are settings alone, so the port gets anything in the other words.
    fn make(&mut self, call: &GossipCall, original: &mut dyn Original, anything: u64) -> Result<Answer, String> {
        self.lent.words = with_anything_unread(call, &self.lent.words, anything);
        if let Some(refusal) = making_refused(call, &self.lent) {
            self.before = self.state.clone();
            return Ok(Answer::plain(refusal));
        }
        original.make_gossip(call, &self.lent.words);
        self.before = std::mem::take(&mut self.state);
        original.read_gossip(self.subject, &mut self.state);
        let (made, given) = (self.state.words.longs[LIMIT], limit_of(call, &self.lent.words));
        let agrees = match takes_limit(call) {
            true => made == given.max(1),
            false => made == DEFAULT_LIMIT,
        };
        if !agrees {
            return Err(format!("the Rust's limit is {made}, the port's {given}"));
        }
        self.state.words.longs[LIMIT] = given;
        original.set_gossip(self.subject, &self.state);
        for (table, shape) in self.subject.shapes().iter().enumerate() {
            let limit = self.state.words.row_limit(table) as usize;
            self.expected[table][..shape.width() * limit].fill(0);
        }
        Ok(Answer::done())
    }

    fn compare(&self) -> Result<(), String> {
        if self.state.words != self.lent.words {
            return Err(format!(
                "words: the Rust's state is {:?}, the port's {:?}",
                self.state.words, self.lent.words
            ));
        }
        for table in 0..self.subject.shapes().len() {
            if self.lent.tables[table] != self.expected[table] {
                return Err(self.first_byte_that_differs(table));
            }
        }
        Ok(())
    }

    fn first_byte_that_differs(&self, table: usize) -> String {
        let shape = &self.subject.shapes()[table];
        let (expected, found) = (&self.expected[table], &self.lent.tables[table]);
        let at = expected.iter().zip(found).position(|(a, b)| a != b).unwrap_or(0);
        let (row, rows) = (at / shape.width(), self.state.rows[table].len());
        if row >= rows {
            return format!(
                "table {table}, byte {at}, beyond the {rows} rows: {} expected, {} found",
                expected[at], found[at]
            );
        }
        let place = shape.width() * row..shape.width() * (row + 1);
        format!(
            "table {table}, byte {at} (row {row}, byte {}): the Rust's row is {}, the port's {}",
            at % shape.width(),
            show::gossip::row(shape, &shape.get(&expected[place.clone()])),
            show::gossip::row(shape, &shape.get(&found[place]))
        )
    }
}
