//! The samples of docs/REFERENCE.md, on the unchanged Rust and on the proved library at once.

use checks::compare::replay_and_watch;
use checks::show;
use original::UnchangedRust;
use port::Proved;
use vocabulary::{answer, Answer, BucketCall, BucketOperation as B, Buckets, Original, Port};

/// Runs a trace in admit-trace's format; both sides agree, and this is what they answer.
fn output_of(input: &str) -> String {
    let trace = show::parse(input).expect("a trace");
    let mut output = String::new();
    let difference = replay_and_watch(&mut UnchangedRust::default(), &Proved, &trace, &mut |both, call| {
        output += &show::output_line(call, both.answer(), both.state());
        output += "\n";
    });
    assert!(difference.is_none(), "{difference:?}");
    output
}

/// The first words of each line.
fn answers_of(input: &str) -> Vec<String> {
    let first = |line: &str| line.split(' ').next().unwrap().to_string();
    output_of(input).lines().map(first).collect()
}

/// One call on both sides, which must agree.
struct Both {
    original: UnchangedRust,
    buckets: Buckets,
}

impl Both {
    fn new(operation: B, operands: &[u64]) -> Self {
        let mut both = Self {
            original: UnchangedRust::default(),
            buckets: Buckets::default(),
        };
        both.call(operation, operands);
        both
    }

    fn call(&mut self, operation: B, operands: &[u64]) -> Answer {
        let call = BucketCall::of(&checks::amounts::call(operation as u64, operands));
        let answer = self.original.bucket(&call);
        assert_eq!(answer, Proved.bucket(&call, &mut self.buckets));
        assert_eq!(self.original.buckets(), self.buckets);
        answer
    }

    fn says_yes(&mut self, operation: B, operands: &[u64]) -> bool {
        self.call(operation, operands).number == answer::YES
    }
}

#[test]
fn the_trace_program_s_example() {
    let input = "10 2 0 0 2 100 2 4 1000\na 02 300 50\na 02 300 50\na 02 1 50\na 02 1 55\na 02 1 155\nr 300\n";
    let output =
        "Allow 1 300 1\nAllow 2 600 1\nDisconnect-messages 2 600 1\nBan 2 600 1\nAllow 3 601 1\nReleased 2 301 1\n";
    assert_eq!(output_of(input), output);
}

#[test]
fn the_first_limit_in_step_order_is_named() {
    // two messages and 100 bytes a peer, one message and 90 bytes in flight
    let said = |events: &str| answers_of(&format!("10 2 1000 100 0 0 2 1 90\n{events}"));
    assert_eq!(said("a 02 91 50\n"), ["Disconnect-ceiling"]);
    assert_eq!(said("a 02 1 50\na 03 1 50\n"), ["Allow", "Disconnect-ceiling"]);
    assert_eq!(said("a 02 101 50\n"), ["Disconnect-bytes"]);
    assert_eq!(said("a 02 60 50\na 02 60 50\n"), ["Allow", "Disconnect-bytes"]);
    let three = "a 02 1 50\nr 1\na 02 1 50\na 02 999 50\n";
    assert_eq!(said(three), ["Allow", "Released", "Allow", "Disconnect-messages"]);
}

#[test]
fn sample_a() {
    let mut both = Both::new(B::DiscreteNew, &[10, 2]);
    let passes = [59, 59, 60, 69, 70].map(|now| both.says_yes(B::DiscreteTryConsume, &[now]));
    assert_eq!(passes, [true, true, true, false, true]);
}

#[test]
fn sample_b() {
    let mut both = Both::new(B::DiscreteNew, &[1, 2]);
    let passes = [1 << 32; 3].map(|now| both.says_yes(B::DiscreteTryConsume, &[now]));
    assert_eq!(passes, [true, true, false]);
    let mut both = Both::new(B::DiscreteNew, &[1, 2]);
    assert!(both.says_yes(B::DiscreteTryConsume, &[(1 << 32) - 1]));
}

#[test]
fn sample_c() {
    let mut both = Both::new(B::ByteNew, &[999, 1]);
    let passes = [1, 2, 3].map(|now| both.says_yes(B::ByteTryConsume, &[1, now]));
    assert_eq!(passes, [true, false, false]);
    // in the policy a refused admit keeps no refill
    let answers = answers_of("0 0 999 1 0 0 1 0 0\na 02 1 1\na 02 1 2\na 02 1 3\n");
    assert_eq!(answers, ["Allow", "Disconnect-bytes", "Allow"]);
}

#[test]
fn samples_d_e_f() {
    let mut both = Both::new(B::ByteNew, &[125, 1]);
    assert_eq!(
        both.call(B::ByteReserve, &[2_305_843_009_213_693_953, 0]),
        Answer::value(0)
    );
    let mut both = Both::new(B::ByteNew, &[1, 1]);
    let delay = 18_446_744_073_709_549_616;
    assert_eq!(both.call(B::ByteReserve, &[u64::MAX, 0]), Answer::value(delay));
    let mut both = Both::new(B::ByteNew, &[3, 10]);
    assert_eq!(both.call(B::ByteReserve, &[11, 0]), Answer::value(334));
    assert!(both.says_yes(B::ByteHasDebt, &[333]));
    assert!(!both.says_yes(B::ByteHasDebt, &[334]));
}

#[test]
fn sample_i() {
    // threshold 2, window 100: the second of 50 and 149 bans, that of 50 and 150 doesn't
    assert_eq!(
        answers_of("0 0 0 0 2 100 1 0 0\ni 02 50\ni 02 149\n"),
        ["Noted", "Banned"]
    );
    assert_eq!(
        answers_of("0 0 0 0 2 100 1 0 0\ni 02 50\ni 02 150\n"),
        ["Noted", "Noted"]
    );
}

#[test]
fn sample_j() {
    // after 04 came, 03 still has its row and 02 has a new one: 03's last use is 5, 02's is gone
    let input = "0 0 0 0 0 0 2 0 0\na 02 1 5\na 03 1 5\na 04 1 6\nh 02 0\nh 03 0\n";
    let output = output_of(input);
    let held: Vec<&str> = output.lines().skip(3).collect();
    assert_eq!(held, ["Held 0 3 3 2", "Held 5 3 3 2"]);
}
