//! The comparison notices wrong ports, and what it prints is short, can be read back, and still shows the difference.

mod causes;
mod snapshots;

use checks::compare::{self, Options, Outcome};
use checks::show;
use original::UnchangedRust;
use port::Proved;
use snapshots::WrongSnapshots;
use vocabulary::layout::ROW;
use vocabulary::{answer, Answer, BucketCall, BucketOperation, Buckets, PeerCall, PeerOperation, Port, Record};
use vocabulary::{Snapshots, Words};

type PeersFault = fn(&PeerCall, &mut Record, &mut [u8]) -> Answer;

/// The proved library with one fault.
struct Wrong {
    peers: PeersFault,
    /// Of an admit that isn't refused.
    cause: fn([u64; 2]) -> [u64; 2],
    bucket: fn(&BucketCall, &mut Buckets) -> Answer,
    settings: fn(&Words) -> (Answer, [u64; 9]),
    amount: fn(&Words) -> Answer,
    trace: fn(&[u8], &mut [u8]) -> Vec<u8>,
    /// Not compared where there are none.
    snapshots: Option<WrongSnapshots>,
}

/// No fault yet.
const FAITHFUL: Wrong = Wrong {
    peers: |call, record, table| Proved.peers(call, record, table),
    cause: |cause| cause,
    bucket: |call, buckets| Proved.bucket(call, buckets),
    settings: |call| Proved.settings(call),
    amount: |call| Proved.amount(call),
    trace: |input, table| Proved.trace(input, table),
    snapshots: None,
};

impl Wrong {
    fn in_peers(peers: PeersFault) -> Self {
        Self { peers, ..FAITHFUL }
    }
}

impl Port for Wrong {
    fn name(&self) -> &'static str {
        "a wrong port"
    }
    fn make_peers(&self, record: &mut Record, table: &mut [u8]) -> Answer {
        Proved.make_peers(record, table)
    }
    fn peers(&self, call: &PeerCall, record: &mut Record, table: &mut [u8]) -> Answer {
        let answer = (self.peers)(call, record, table);
        match answer.is_admission() {
            true => Answer::caused(answer.number, (self.cause)(answer.cause())),
            false => answer,
        }
    }
    fn bucket(&self, call: &BucketCall, buckets: &mut Buckets) -> Answer {
        (self.bucket)(call, buckets)
    }
    fn settings(&self, call: &Words) -> (Answer, [u64; 9]) {
        (self.settings)(call)
    }
    fn amount(&self, call: &Words) -> Answer {
        (self.amount)(call)
    }
    fn trace(&self, input: &[u8], table: &mut [u8]) -> Vec<u8> {
        (self.trace)(input, table)
    }
    fn snapshots(&self) -> Option<&dyn Snapshots> {
        self.snapshots.as_ref().map(|wrong| wrong as &dyn Snapshots)
    }
}

/// What 20,000 calls come to.
fn compared(port: &dyn Port, seed: u64) -> Outcome {
    let options = Options {
        calls: 20_000,
        seed,
        watch: true,
        first_only: false,
    };
    compare::run(&mut UnchangedRust::default(), port, &options)
}

/// Some mismatch, and each that is shown has at most so many lines and is one when read back.
fn is_noticed(port: &Wrong, most_lines: usize) {
    let outcome = compared(port, 7);
    assert!(outcome.tally.mismatches() > 0);
    for shown in &outcome.shown {
        let lines: Vec<&str> = shown.trim_end().lines().collect();
        let text: String = lines[1..lines.len() - 1]
            .iter()
            .map(|line| format!("{line}\n"))
            .collect();
        assert!(lines.len() - 2 <= most_lines, "{shown}");
        let trace = show::parse(&text).unwrap_or_else(|error| panic!("{error}\n{shown}"));
        let mut original = UnchangedRust::default();
        assert!(compare::replay(&mut original, port, &trace).is_some(), "{shown}");
        assert!(compare::replay(&mut original, &Proved, &trace).is_none(), "{shown}");
    }
}

#[test]
fn a_ban_that_is_called_disconnect() {
    let fault = |call: &PeerCall, record: &mut Record, table: &mut [u8]| {
        let answer = Proved.peers(call, record, table);
        match answer.number {
            answer::BAN => Answer::caused(answer::DISCONNECT, answer.cause()),
            _ => answer,
        }
    };
    is_noticed(&Wrong::in_peers(fault), 6);
}

#[test]
fn a_ban_that_is_live_at_its_end() {
    let fault = |call: &PeerCall, record: &mut Record, table: &mut [u8]| {
        let mut call = *call;
        if call.operation == PeerOperation::IsBanned {
            call.now = call.now.saturating_sub(1);
        }
        Proved.peers(&call, record, table)
    };
    is_noticed(&Wrong::in_peers(fault), 6);
}

#[test]
fn a_freed_place_that_is_not_zeroed() {
    let fault = |call: &PeerCall, record: &mut Record, table: &mut [u8]| {
        let before = record.longs[7];
        let answer = Proved.peers(call, record, table);
        if record.longs[7] < before {
            table[ROW * before as usize - 1] = 1;
        }
        answer
    };
    is_noticed(&Wrong::in_peers(fault), 6);
}

#[test]
fn a_byte_beyond_the_limit() {
    let fault = |call: &PeerCall, record: &mut Record, table: &mut [u8]| {
        let answer = Proved.peers(call, record, table);
        let limit = ROW * record.longs[4].clamp(1, 1_024) as usize;
        if let (Some(byte), answer::ALLOW) = (table.get_mut(limit), answer.number) {
            *byte = byte.wrapping_add(1);
        }
        answer
    };
    is_noticed(&Wrong::in_peers(fault), 6);
}

#[test]
fn a_refusal_that_forgets_to_refuse() {
    let fault = |call: &PeerCall, record: &mut Record, table: &mut [u8]| {
        let answer = Proved.peers(call, record, table);
        match answer.number {
            3 => Answer::plain(answer::NO),
            _ => answer,
        }
    };
    is_noticed(&Wrong::in_peers(fault), 6);
}

#[test]
fn a_delay_that_is_clamped() {
    let bucket = |call: &BucketCall, buckets: &mut Buckets| {
        let mut answer = Proved.bucket(call, buckets);
        if call.operation == BucketOperation::ByteReserve {
            answer.values[0] = answer.values[0].min(u64::MAX / 2);
        }
        answer
    };
    is_noticed(&Wrong { bucket, ..FAITHFUL }, 4);
}

#[test]
fn a_shortage_that_is_one_off() {
    let bucket = |call: &BucketCall, buckets: &mut Buckets| {
        let mut answer = Proved.bucket(call, buckets);
        if call.operation == BucketOperation::ByteTryConsume && answer.values[0] > 0 {
            answer.values[0] -= 1;
        }
        answer
    };
    is_noticed(&Wrong { bucket, ..FAITHFUL }, 4);
}

#[test]
fn a_question_that_changes_the_settings() {
    let settings = |call: &Words| {
        let (answer, mut after) = Proved.settings(call);
        if answer.number == answer::YES {
            after[8] = after[8].wrapping_add(1);
        }
        (answer, after)
    };
    is_noticed(&Wrong { settings, ..FAITHFUL }, 2);
}

#[test]
fn a_sum_that_keeps_minus_zero() {
    let amount = |call: &Words| {
        let mut answer = Proved.amount(call);
        if call[0] == checks::amounts::SATURATING_ADD && answer.values == [0, 0, 0] {
            answer.values[0] = call[1];
        }
        answer
    };
    is_noticed(&Wrong { amount, ..FAITHFUL }, 2);
}

#[test]
fn a_last_line_that_is_not_written() {
    let trace = |input: &[u8], table: &mut [u8]| {
        let mut written = Proved.trace(input, table);
        written.pop();
        let end = written.iter().rposition(|byte| *byte == b'\n');
        written.truncate(end.map_or(0, |end| end + 1));
        written
    };
    is_noticed(&Wrong { trace, ..FAITHFUL }, 2);
}

#[test]
fn lines_that_are_counted_from_0() {
    let trace = |input: &[u8], table: &mut [u8]| {
        let written = String::from_utf8(Proved.trace(input, table)).unwrap();
        let line = |line: &str| match line.strip_prefix("bad line ") {
            Some(number) => format!("bad line {}\n", number.parse::<u64>().unwrap() - 1),
            None => format!("{line}\n"),
        };
        written.lines().map(line).collect::<String>().into_bytes()
    };
    is_noticed(&Wrong { trace, ..FAITHFUL }, 2);
}

#[test]
fn an_answer_that_is_the_table_s() {
    let trace = |input: &[u8], table: &mut [u8]| {
        let byte = table[0];
        let mut written = Proved.trace(input, table);
        if let Some(first) = written.first_mut().filter(|_| byte > 127) {
            *first = b'?';
        }
        written
    };
    is_noticed(&Wrong { trace, ..FAITHFUL }, 2);
}

#[test]
fn the_proved_library_is_not_noticed() {
    let outcome = compared(&Proved, 8);
    assert_eq!(outcome.tally.mismatches(), 0, "{:?}", outcome.shown);
    assert_eq!(outcome.tally.calls(), 20_000);
}
