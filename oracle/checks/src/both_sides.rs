//! Runs one trace on both sides, call by call, and compares after every call. `snapshots` has the steps on snapshots.

mod snapshots;

use crate::damage::{damage_peers, damaged_buckets, Damage};
use crate::gossip::sides::GossipSides;
use crate::inputs::traced::{ending, traced};
use crate::inputs::ROWS;
use crate::tally::Tally;
use crate::trace::{Kind, PeerStart, Trace};
use crate::watch::watch;
use crate::{amounts, settings, show};
use vocabulary::layout::{self, ROW};
use vocabulary::peer::*;
use vocabulary::{answer, Answer, BucketCall, BucketOperation, Buckets, GossipState, Original, Port, Words};

/// Where and how the two sides differed.
#[derive(Clone, Debug)]
pub struct Difference {
    pub at: usize,
    pub what: String,
}

/// Both sides in the middle of a trace.
pub struct BothSides<'a> {
    kind: Kind,
    original: &'a mut dyn Original,
    port: &'a dyn Port,
    keys: Vec<Key>,
    /// What the Rust holds now, and held before the last call.
    state: PeerState,
    before: PeerState,
    record: Record,
    table: Vec<u8>,
    /// The table as it should be: the Rust's rows laid out, other bytes as they were.
    expected: Vec<u8>,
    buckets: Buckets,
    /// The input of the kind `Inputs`, and what the trace program should write for it.
    input: Vec<u8>,
    output: String,
    /// Of the kinds about the gossip policy.
    gossip: Option<GossipSides>,
    /// What the last call should answer.
    answer: Answer,
}

impl<'a> BothSides<'a> {
    /// Sets both sides to where the trace begins; a trace that isn't valid has no beginning.
    pub fn begin(trace: &Trace, original: &'a mut dyn Original, port: &'a dyn Port) -> Result<Self, String> {
        let state = match trace.kind {
            kind if kind.begins_with_peers() => trace.peer_state().ok_or("not a sound start")?,
            _ => PeerState::fresh(Settings::from_words(&[0; 9]).unwrap()),
        };
        original.set_peers(&state);
        for operation in [BucketOperation::DiscreteNew, BucketOperation::ByteNew] {
            original.bucket(&BucketCall {
                operation,
                operands: [0; 7],
            });
        }
        let gossip = match trace.kind.gossip_subject() {
            Some(subject) => Some(GossipSides::begin(subject, &trace.gossip, original).ok_or("not a sound start")?),
            None => None,
        };
        let mut both = BothSides {
            kind: trace.kind,
            original,
            port,
            keys: trace.keys.clone(),
            before: state.clone(),
            record: Record::of(&state),
            table: Vec::new(),
            expected: Vec::new(),
            buckets: Buckets::default(),
            input: trace.input.bytes.clone(),
            output: String::new(),
            gossip,
            answer: Answer::done(),
            state,
        };
        both.lend_table(&trace.start)?;
        Ok(both)
    }

    pub fn state(&self) -> &PeerState {
        &self.state
    }

    /// Of a trace on the gossip policy.
    pub fn gossip_state(&self) -> Option<&GossipState> {
        self.gossip.as_ref().map(GossipSides::state)
    }

    pub fn buckets(&self) -> &Buckets {
        &self.buckets
    }

    /// What the last call should have answered: the Rust's answer, or the refusal that is known.
    pub fn answer(&self) -> &Answer {
        &self.answer
    }

    /// What the trace program should have written for the input.
    pub fn output(&self) -> &str {
        &self.output
    }

    /// Counts the call and keeps what it should answer.
    fn expect(&mut self, operation: u64, answer: Answer, tally: &mut Tally) {
        self.answer = answer;
        tally.count(self.kind, operation, &answer);
    }

    /// A table with filler in every place that holds nothing. A fresh policy is made on it by the port itself.
    fn lend_table(&mut self, start: &PeerStart) -> Result<(), String> {
        if !self.kind.begins_with_peers() {
            return Ok(());
        }
        let limit = ROW * self.state.settings.row_limit() as usize;
        self.expected = filled(limit + start.spare as usize, start.filler);
        self.table = self.expected.clone();
        if start.is_fresh() {
            // Making reads nothing of the record but the settings.
            self.record.longs[6] = start.filler;
            self.record.longs[7] = start.filler;
            self.record.shorts[3] = start.filler as u32;
            let made = self.port.make_peers(&mut self.record, &mut self.table);
            self.expected[..limit].fill(0);
            if made != Answer::done() {
                return Err(format!("new: the port answers {made}"));
            }
        } else {
            layout::lay(&mut self.table, 0, &self.state);
            layout::lay(&mut self.expected, 0, &self.state);
        }
        self.compare_peers()
    }

    /// One call on both sides. The error says how they differ.
    pub fn step(&mut self, call: &Words, tally: &mut Tally) -> Result<(), String> {
        match self.kind {
            Kind::Peers => self.step_peers(call, tally),
            Kind::Buckets => self.step_buckets(call, tally),
            Kind::PeerRefusals => self.step_peer_refusal(call, tally),
            Kind::BucketRefusals => self.step_bucket_refusal(call, tally),
            Kind::Amounts => {
                self.expect(call[0], amounts::by_rust(call), tally);
                same_answer(self.answer, self.port.amount(call))
            }
            Kind::Settings => self.step_settings(call, tally),
            Kind::Inputs => self.step_input(call, tally),
            Kind::Snapshots => self.step_snapshots(call, tally),
            Kind::SnapshotRefusals => self.step_snapshot_refusal(call, tally),
            _ => self.step_gossip(call, tally),
        }
    }

    fn step_gossip(&mut self, words: &Words, tally: &mut Tally) -> Result<(), String> {
        let Self {
            kind,
            original,
            port,
            gossip,
            answer,
            ..
        } = self;
        let mut expect = |expected: Answer, tally: &mut Tally| {
            *answer = expected;
            tally.count(*kind, words[0], &expected);
        };
        let sides = gossip.as_mut().expect("a trace on gossip");
        if kind.is_gossip_refusals() {
            sides.step_damaged(words, *original, *port, tally, &mut expect)
        } else {
            sides.step(words, *original, *port, tally, &mut expect)
        }
    }

    fn step_peers(&mut self, words: &Words, tally: &mut Tally) -> Result<(), String> {
        let call = self.peer_call(words);
        let mut answer = self.original.peers(&call);
        if answer.number == answer::ALLOW && meets_refusal_4(&self.state, call.bytes) {
            // Outside the Rust's domain: it wrapped. The port must refuse and leave all as found.
            answer = Answer::plain(4);
            tally.refusal_4 += 1;
            self.original.set_peers(&self.state);
        }
        self.expect(words[0], answer, tally);
        std::mem::swap(&mut self.state, &mut self.before);
        self.original.read_peers(&mut self.state);
        if tally.watch {
            watch(&self.before, &self.state, &call, &answer, tally);
        }
        let answered = self.port.peers(&call, &mut self.record, &mut self.table);
        if self.state.rows.len() as u64 <= self.state.settings.row_limit() {
            layout::lay(&mut self.expected, self.before.rows.len(), &self.state);
        }
        same_answer(answer, answered)?;
        self.compare_peers()
    }

    fn peer_call(&self, words: &Words) -> PeerCall {
        PeerCall {
            operation: PeerOperation::ALL[words[0] as usize],
            key: self.keys[words[1] as usize],
            bytes: words[2],
            now: words[3],
        }
    }

    fn compare_peers(&self) -> Result<(), String> {
        let record = Record::of(&self.state);
        if record != self.record {
            return Err(format!(
                "record: the Rust's state is {record:?}, the port's {:?}",
                self.record
            ));
        }
        if self.table != self.expected {
            return Err(self.first_byte_that_differs());
        }
        Ok(())
    }

    fn first_byte_that_differs(&self) -> String {
        let mut bytes = self.expected.iter().zip(&self.table);
        let at = bytes.position(|(a, b)| a != b).unwrap_or(0);
        let row = at / ROW;
        if row >= self.state.rows.len() {
            return format!(
                "table byte {at}, beyond the {} rows: {} expected, {} found",
                self.state.rows.len(),
                self.expected[at],
                self.table[at]
            );
        }
        let place = ROW * row..ROW * (row + 1);
        format!(
            "table byte {at} (row {row}, byte {}): the Rust's row is {}, the port's {}",
            at % ROW,
            show::row(&layout::get_row(&self.expected[place.clone()])),
            show::row(&layout::get_row(&self.table[place]))
        )
    }

    fn step_buckets(&mut self, words: &Words, tally: &mut Tally) -> Result<(), String> {
        let call = BucketCall::of(words);
        let answer = self.original.bucket(&call);
        self.expect(words[0], answer, tally);
        same_answer(answer, self.port.bucket(&call, &mut self.buckets))?;
        let expected = self.original.buckets();
        if expected != self.buckets {
            return Err(format!(
                "the Rust's bucket is {}, the port's {}",
                show::bucket(call.operation, &expected),
                show::bucket(call.operation, &self.buckets)
            ));
        }
        Ok(())
    }

    fn step_settings(&mut self, call: &Words, tally: &mut Tally) -> Result<(), String> {
        let (answer, expected) = settings::by_rust(self.original, call);
        self.expect(call[0], answer, tally);
        let (answered, after) = self.port.settings(call);
        same_answer(answer, answered)?;
        if expected != after {
            return Err(format!("the Rust's settings are {expected:?}, the port's {after:?}"));
        }
        Ok(())
    }

    /// The whole input at once. What the table holds before is told by the input's length, and must not matter.
    fn step_input(&mut self, call: &Words, tally: &mut Tally) -> Result<(), String> {
        self.output = traced(self.original, &self.input);
        self.expect(call[0], ending(&self.output), tally);
        let mut table = filled(ROW * ROWS as usize, self.input.len() as u64 + 1);
        let written = self.port.trace(&self.input, &mut table);
        same_lines(self.output.as_bytes(), &written)
    }

    // Refusals: a sound state is damaged in one known way, so the number is known by construction.

    /// Words: the damage, the key's place, bytes, now, the operation, the row that is damaged.
    fn step_peer_refusal(&mut self, words: &Words, tally: &mut Tally) -> Result<(), String> {
        let operation = PeerOperation::ALL[words[4] as usize % PeerOperation::ALL.len()];
        let mut call = self.peer_call(&[0, words[1], words[2], words[3], 0, 0, 0, 0]);
        call.operation = operation;
        let (mut record, mut table) = (self.record, self.table.clone());
        let Some(damage) = damage_peers(words, &self.state, &mut record, &mut table) else {
            return Ok(());
        };
        let (record_before, table_before) = (record, table.clone());
        let (expected, answered) = match damage {
            Damage::Making(number) => (number, self.port.make_peers(&mut record, &mut table)),
            Damage::Table if !operation.uses_key() => {
                // Calls that read no table aren't judged on it; they are compared elsewhere.
                return Ok(());
            }
            _ => (3, self.port.peers(&call, &mut record, &mut table)),
        };
        let expected = Answer::plain(expected);
        self.expect(words[0], expected, tally);
        same_answer(expected, answered)?;
        if record != record_before || table != table_before {
            return Err("a refused call changed the record or the table".into());
        }
        Ok(())
    }

    /// Words: the operation and its operands; words 4 to 7 choose the damage.
    fn step_bucket_refusal(&mut self, words: &Words, tally: &mut Tally) -> Result<(), String> {
        let call = BucketCall::of(words);
        let mut buckets = damaged_buckets(words);
        let before = buckets;
        use BucketOperation as B;
        let operation = call.operation;
        if matches!(operation, B::DiscreteNew | B::ByteNew | B::DiscreteSet | B::ByteSet) {
            return Ok(());
        }
        let expected = match operation {
            B::ByteBurstBytes => Answer::value(before.byte.burst),
            B::ByteIsDisabled => Answer::yes_or_no(before.byte.rate == 0 || before.byte.burst == 0),
            _ => Answer::plain(3),
        };
        self.expect(words[0], expected, tally);
        same_answer(expected, self.port.bucket(&call, &mut buckets))?;
        if buckets != before {
            return Err("a refused call changed the bucket".into());
        }
        Ok(())
    }
}

pub(crate) fn same_answer(original: Answer, port: Answer) -> Result<(), String> {
    if original == port {
        return Ok(());
    }
    Err(format!("answer: {original} expected, the port says {port}"))
}

/// Byte for byte; the error names the first line that differs.
fn same_lines(original: &[u8], port: &[u8]) -> Result<(), String> {
    if original == port {
        return Ok(());
    }
    let of = |output: &'_ [u8]| -> Vec<String> {
        let lines = output.split_inclusive(|byte| *byte == b'\n');
        lines.map(|line| format!("'{}'", show::escaped(line))).collect()
    };
    let (original, port) = (of(original), of(port));
    let at = original.iter().zip(&port).take_while(|(a, b)| a == b).count();
    let line = |lines: &[String]| lines.get(at).cloned().unwrap_or("nothing more".into());
    Err(format!(
        "line {} written: {} expected, the port writes {}",
        at + 1,
        line(&original),
        line(&port)
    ))
}

/// Bytes that look like anything; zeros for filler 0.
pub(crate) fn filled(length: usize, filler: u64) -> Vec<u8> {
    let mut dice = crate::dice::Dice::new(filler);
    (0..length)
        .map(|_| if filler == 0 { 0 } else { dice.roll() as u8 })
        .collect()
}

/// The ceiling is unlimited, and the message count or the bytes' sum would pass its width.
pub(crate) fn meets_refusal_4(state: &PeerState, bytes: u64) -> bool {
    state.settings.unlimited()
        && (state.in_flight_messages == u32::MAX || state.in_flight_bytes.checked_add(bytes).is_none())
}
