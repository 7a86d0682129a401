//! Times calls of the gossip policy on both sides, each over 16 and over 1,024 rows, all of which are asked about.

use super::clock::{median, time_each, RUNS};
use super::trace::{FIRST_TIME, SEED};
use checks::dice::Dice;
use original::UnchangedRust;
use vocabulary::gossip::*;
use vocabulary::{Amount, ByteBucket, GossipCall, GossipRow, GossipState, LongKey, Original, Port, Subject};

const CALLS: usize = 10_000;

/// The calls that are timed: subject and operation.
const TIMED: [(Subject, u32); 5] = [
    (Subject::Bans, 3),
    (Subject::Bans, 4),
    (Subject::Limiter, 3),
    (Subject::Gossip, 6),
    (Subject::Gossip, 9),
];

/// The default settings with 1,024 rows at most; the global bucket is large, so that messages pass.
fn state(subject: Subject, keys: &[LongKey]) -> GossipState {
    let mut state = GossipState::default();
    let words = &mut state.words;
    words.longs[LIMIT] = MOST_ROWS;
    (words.longs[PERIOD], words.shorts[MOST]) = match subject {
        Subject::Limiter => (60_000, 10),
        _ => (600_000, 100),
    };
    if subject == Subject::Gossip {
        [words.longs[PEER_RATE], words.longs[PEER_BURST]] = [51_200, 102_400];
        words.set_global(&ByteBucket {
            rate: 1_024_000,
            burst: 1 << 40,
            available: Amount::plus(1 << 40),
            last_refill: FIRST_TIME,
        });
    }
    let row = |numbers: [u64; 4]| keys.iter().map(move |key| GossipRow { key: *key, numbers }).collect();
    match subject {
        Subject::Bans => state.rows[0] = row([25, 0, 0, FIRST_TIME]),
        Subject::Limiter => state.rows[0] = row([10, FIRST_TIME, FIRST_TIME, 0]),
        Subject::Gossip => state.rows[1] = row([0, 102_400, 0, FIRST_TIME]),
    }
    state.put_in_order();
    state
}

fn keys(subject: Subject, rows: usize) -> Vec<LongKey> {
    let mut dice = Dice::new(SEED);
    let used = subject.shapes()[0].key;
    let mut key = || {
        let mut key = [0; 70];
        key[..used].fill_with(|| dice.roll() as u8);
        if subject == Subject::Limiter {
            key[69] %= 2;
        }
        key
    };
    (0..rows).map(|_| key()).collect()
}

/// Three calls a millisecond, spread evenly over the peers.
fn calls(subject: Subject, operation: u32, keys: &[LongKey]) -> Vec<GossipCall> {
    let mut dice = Dice::new(SEED);
    let call = |number: usize| {
        let key = dice.pick(keys);
        GossipCall {
            subject,
            operation,
            key,
            side: key[69].into(),
            violation: 2,
            bytes: dice.between(100, 499),
            now: FIRST_TIME + number as u64 / 3,
        }
    };
    (0..CALLS).map(call).collect()
}

fn time_port<P: Port>(port: &P, subject: Subject, start: &GossipState, calls: &[GossipCall]) -> f64 {
    let mut words = start.words;
    let mut tables = [Vec::new(), Vec::new()];
    for (table, shape) in subject.shapes().iter().enumerate() {
        tables[table] = vec![0; shape.width() * MOST_ROWS as usize];
        shape.lay(&mut tables[table], 0, &start.rows[table]);
    }
    let [first, second] = &mut tables;
    time_each(calls, |call| {
        let answer = port.gossip(call, &mut words, [&mut *first, &mut *second]);
        assert!(!answer.is_refusal(), "{answer}");
        answer
    })
}

pub fn run<P: Port>(port: &P) {
    println!("{CALLS} calls of the gossip policy, processor time, median of {RUNS} runs each, in turns");
    let mut original = UnchangedRust::default();
    for (subject, operation) in TIMED {
        for rows in [16, MOST_ROWS as usize] {
            let keys = keys(subject, rows);
            let (start, calls) = (state(subject, &keys), calls(subject, operation, &keys));
            let (mut rust, mut ours) = (Vec::new(), Vec::new());
            for _ in 0..RUNS {
                original.set_gossip(subject, &start);
                rust.push(time_each(&calls, |call| original.gossip(call)));
                if port.has_gossip() {
                    ours.push(time_port(port, subject, &start, &calls));
                }
            }
            let name = calls[0].name();
            let rust = median(rust);
            print!("{rows:>5} rows, {name}: Rust {rust:.1} ns a call");
            if ours.is_empty() {
                println!(", the port has no such call");
            } else {
                let ours = median(ours);
                println!(", port {ours:.1} ns, ratio {:.2}", ours / rust);
            }
        }
    }
}
