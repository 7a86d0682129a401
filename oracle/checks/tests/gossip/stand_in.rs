//! A stand-in for the port under test, for the tests of the comparison alone: the gossip policy as documents 01 and 10 say it, over the
//! words and bytes that cross the C boundary. It is not the library, and nothing but these tests can link it.

use vocabulary::gossip::*;
use vocabulary::{
    Amount, Answer, BucketCall, Buckets, GossipCall, GossipRow, GossipWords, PeerCall, Port, Reads, Record, Shape,
    Subject, Words,
};

pub struct StandIn;

const DONE: Answer = Answer::done();

fn yes_or_no(yes: bool) -> Answer {
    Answer::yes_or_no(yes)
}

fn refused(number: u32) -> Answer {
    Answer::plain(number)
}

impl Port for StandIn {
    fn name(&self) -> &'static str {
        "a stand-in for the tests"
    }

    fn has_gossip(&self) -> bool {
        true
    }

    fn gossip(&self, call: &GossipCall, words: &mut GossipWords, tables: [&mut [u8]; 2]) -> Answer {
        let operations = call.subject.operations().len() as u32;
        if call.operation == 0 || call.operation > operations || call.records_violation() && call.violation > 2 {
            return refused(0);
        }
        if call.reads() == Reads::Making {
            return make(call, words, tables);
        }
        let [first, second] = tables;
        match call.reads() {
            Reads::Settings => settings(call, words),
            Reads::Record(_) if !record_is_sound(words, 0) => refused(3),
            Reads::Record(_) => Answer::value(words.longs[ROWS]),
            Reads::Table(1) => on_table(call, words, second, 1),
            _ => on_table(call, words, first, 0),
        }
    }

    fn make_peers(&self, _: &mut Record, _: &mut [u8]) -> Answer {
        unreachable!()
    }
    fn peers(&self, _: &PeerCall, _: &mut Record, _: &mut [u8]) -> Answer {
        unreachable!()
    }
    fn bucket(&self, _: &BucketCall, _: &mut Buckets) -> Answer {
        unreachable!()
    }
    fn settings(&self, _: &Words) -> (Answer, [u64; 9]) {
        unreachable!()
    }
    fn amount(&self, _: &Words) -> Answer {
        unreachable!()
    }
    fn trace(&self, _: &[u8], _: &mut [u8]) -> Vec<u8> {
        unreachable!()
    }
}

fn make(call: &GossipCall, words: &mut GossipWords, tables: [&mut [u8]; 2]) -> Answer {
    let limit = match (call.subject, call.operation) {
        (Subject::Bans | Subject::Limiter, 2) => words.longs[LIMIT],
        _ => 1_024,
    };
    if limit > 1_024 {
        return refused(2);
    }
    let rows = limit.max(1) as usize;
    let shapes = call.subject.shapes();
    if shapes
        .iter()
        .zip(&tables)
        .any(|(shape, table)| table.len() < shape.width() * rows)
    {
        return refused(1);
    }
    for (shape, table) in shapes.iter().zip(tables) {
        table[..shape.width() * rows].fill(0);
    }
    if (call.subject, call.operation) == (Subject::Gossip, 2) {
        words.shorts[MOST] = 100;
        words.longs = [600_000, 0, 0, 1_024_000, 2_048_000, 0, 51_200, 102_400, 0, 1_024];
    }
    words.longs[LIMIT] = limit;
    words.longs[ROWS] = 0;
    if call.subject == Subject::Gossip {
        words.longs[OUTBOUND_ROWS] = 0;
        let mut global = words.global();
        global.available = Amount::plus(global.burst.into());
        global.last_refill = 0;
        words.set_global(&global);
    }
    DONE
}

fn settings(call: &GossipCall, words: &GossipWords) -> Answer {
    let global = limit_of(words, GLOBAL_RATE);
    let peer = limit_of(words, PEER_RATE);
    let capacity = |limit: ByteLimit| {
        if limit.off() {
            yes_or_no(false)
        } else {
            Answer::value(limit.burst)
        }
    };
    match call.operation {
        12 => yes_or_no(exceeds(words, call.bytes)),
        13 => Answer::value(words.longs[QUEUE_CAPACITY]),
        14 => capacity(global),
        _ => capacity(peer),
    }
}

fn exceeds(words: &GossipWords, bytes: u64) -> bool {
    [GLOBAL_RATE, PEER_RATE].iter().any(|place| {
        let limit = limit_of(words, *place);
        !limit.off() && bytes > limit.burst
    })
}

#[derive(Clone, Copy)]
struct ByteLimit {
    rate: u64,
    burst: u64,
}

impl ByteLimit {
    fn off(&self) -> bool {
        self.rate == 0 || self.burst == 0
    }
}

fn limit_of(words: &GossipWords, place: usize) -> ByteLimit {
    ByteLimit {
        rate: words.longs[place],
        burst: words.longs[place + 1],
    }
}

// Soundness (docs/REFERENCE.md, "Sound").

fn record_is_sound(words: &GossipWords, table: usize) -> bool {
    if table == 0 {
        return words.longs[LIMIT] <= 1_024 && words.longs[ROWS] <= words.longs[LIMIT].max(1);
    }
    let global = words.global();
    words.longs[OUTBOUND_ROWS] <= 1_024 && amount_is_sound(&global.available, global.burst)
}

fn amount_is_sound(amount: &Amount, burst: u64) -> bool {
    let half = 1u128 << 127;
    if amount.negative {
        amount.magnitude >= 1 && amount.magnitude <= half
    } else {
        amount.magnitude < half && amount.magnitude <= burst.into()
    }
}

fn row_is_sound(subject: Subject, table: usize, words: &GossipWords, row: &GossipRow) -> bool {
    let n = &row.numbers;
    match (subject, table) {
        (Subject::Limiter, _) => n[0] <= words.shorts[MOST].into() && row.key[69] <= 1,
        (_, 0) => n[0] < 1 << 32 && n[1] <= 1 && (n[1] == 1 || n[2] == 0),
        _ => n[0] <= 1 && amount_is_sound(&row.amount(), words.longs[PEER_BURST]),
    }
}

fn on_table(call: &GossipCall, words: &mut GossipWords, bytes: &mut [u8], table: usize) -> Answer {
    let shape = &call.subject.shapes()[table];
    if !record_is_sound(words, table) {
        return refused(3);
    }
    let (most, count) = match table {
        0 => (words.longs[LIMIT].max(1), words.longs[ROWS] as usize),
        _ => (1_024, words.longs[OUTBOUND_ROWS] as usize),
    };
    if bytes.len() < shape.width() * most as usize {
        return refused(3);
    }
    let mut rows = shape.rows_of(bytes, count);
    let sound = |row: &GossipRow| row_is_sound(call.subject, table, words, row);
    if !rows.iter().all(sound) || rows.windows(2).any(|pair| pair[0].key >= pair[1].key) {
        return refused(3);
    }
    let answer = match (call.subject, table) {
        (Subject::Limiter, _) => limiter(call, words, &mut rows),
        (_, 0) => bans(call, words, &mut rows),
        _ => outbound(call, words, &mut rows),
    };
    if !answer.is_refusal() {
        words.longs[if table == 0 { ROWS } else { OUTBOUND_ROWS }] = rows.len() as u64;
        write(shape, bytes, count, &rows);
    }
    answer
}

fn write(shape: &Shape, bytes: &mut [u8], before: usize, rows: &[GossipRow]) {
    for (at, row) in rows.iter().enumerate() {
        shape.put(&mut bytes[shape.width() * at..shape.width() * (at + 1)], row);
    }
    for at in rows.len()..before {
        bytes[shape.width() * at..shape.width() * (at + 1)].fill(0);
    }
}

fn find(rows: &[GossipRow], call: &GossipCall) -> Option<usize> {
    rows.iter().position(|row| row.key == call.key)
}

fn insert(rows: &mut Vec<GossipRow>, row: GossipRow) {
    let at = rows.iter().position(|other| other.key > row.key).unwrap_or(rows.len());
    rows.insert(at, row);
}

// 3.6: the ban tracker. Row: score, mark, end, last update.

fn bans(call: &GossipCall, words: &GossipWords, rows: &mut Vec<GossipRow>) -> Answer {
    let (duration, now) = (words.longs[PERIOD], call.now);
    let threshold = words.shorts[MOST];
    let off = duration == 0 || threshold == 0;
    let expired = |row: &GossipRow| now >= row.numbers[3].saturating_add(duration);
    let is_prune = matches!(
        (call.subject, call.operation),
        (Subject::Bans, 6) | (Subject::Gossip, 5)
    );
    if is_prune {
        rows.retain(|row| !expired(row));
        return DONE;
    }
    let is_score = (call.subject, call.operation) == (Subject::Bans, 5);
    if off && !is_score {
        return yes_or_no(false);
    }
    if find(rows, call).is_some_and(|at| expired(&rows[at])) {
        rows.retain(|row| row.key != call.key);
    }
    let found = find(rows, call);
    if is_score {
        return Answer::value(found.map_or(0, |at| rows[at].numbers[0]));
    }
    if call.operation == 4 {
        return yes_or_no(found.is_some_and(|at| rows[at].numbers[1] == 1 && now < rows[at].numbers[2]));
    }
    let limit = words.longs[LIMIT].max(1) as usize;
    if found.is_none() && rows.len() == limit {
        rows.retain(|row| !expired(row));
        if rows.len() == limit {
            let rank = |row: &&GossipRow| {
                let n = &row.numbers;
                (n[1] == 1 && now < n[2], n[0], n[3], row.key)
            };
            let least = rows.iter().min_by_key(rank).unwrap().key;
            rows.retain(|row| row.key != least);
        }
    }
    if find(rows, call).is_none() {
        let (key, numbers) = (call.key, [0; 4]);
        insert(rows, GossipRow { key, numbers });
    }
    let row = find(rows, call).unwrap();
    let n = &mut rows[row].numbers;
    n[0] = (n[0] + if call.violation == 2 { 25 } else { 100 }).min(u32::MAX.into());
    n[3] = now;
    let reached = n[0] >= threshold.into();
    if reached {
        (n[1], n[2]) = (1, now.saturating_add(duration));
    }
    yes_or_no(reached)
}

// 3.7: the limiter. Row: available, last refill, last used.

fn limiter(call: &GossipCall, words: &GossipWords, rows: &mut Vec<GossipRow>) -> Answer {
    let (interval, burst, now) = (words.longs[PERIOD], u64::from(words.shorts[MOST]), call.now);
    if interval == 0 || burst == 0 {
        return yes_or_no(true);
    }
    let refill = |row: &mut GossipRow| {
        let n = &mut row.numbers;
        let cut = now.saturating_sub(n[1]) / interval % (1 << 32);
        n[0] = (n[0] + cut).min(burst);
        n[1] += cut * interval;
    };
    let limit = words.longs[LIMIT].max(1) as usize;
    if find(rows, call).is_none() {
        if rows.len() == limit {
            rows.iter_mut().for_each(refill);
            rows.retain(|row| row.numbers[0] < burst);
            if rows.len() == limit {
                return yes_or_no(false);
            }
        }
        let (key, numbers) = (call.key, [burst, 0, now, 0]);
        insert(rows, GossipRow { key, numbers });
    }
    let at = find(rows, call).unwrap();
    rows[at].numbers[2] = now;
    refill(&mut rows[at]);
    let yes = rows[at].numbers[0] > 0;
    rows[at].numbers[0] -= u64::from(yes);
    yes_or_no(yes)
}

// 3.8: outbound messages. Row: sign, low, high, last refill.

#[derive(Clone, Copy)]
struct Bucket {
    limit: ByteLimit,
    available: i128,
    last: u64,
}

impl Bucket {
    fn refill(&mut self, now: u64) {
        if self.limit.off() || now <= self.last {
            return;
        }
        let earned = u128::from(now - self.last) * u128::from(self.limit.rate) / 1_000;
        self.available = (self.available + earned as i128).min(self.limit.burst.into());
        self.last = now;
    }

    fn consume(&mut self, bytes: u64, now: u64) -> bool {
        self.refill(now);
        let passes = self.limit.off() || i128::from(bytes) <= self.available;
        if passes && !self.limit.off() {
            self.available -= i128::from(bytes);
        }
        passes
    }

    /// After a refill.
    fn delay(mut self, bytes: u64, now: u64) -> u64 {
        if self.limit.off() {
            return 0;
        }
        self.refill(now);
        let short = i128::from(bytes).saturating_sub(self.available).max(0) as u128;
        short.saturating_mul(1_000).div_ceil(self.limit.rate.into()) as u64
    }

    fn reserve(&mut self, bytes: u64, now: u64) -> u64 {
        let delay = self.delay(bytes, now);
        if !self.limit.off() {
            self.refill(now);
            self.available = self.available.saturating_sub(bytes.into());
        }
        delay
    }

    fn refund(&mut self, bytes: u64, now: u64) {
        if !self.limit.off() {
            self.refill(now);
            self.available = self.available.saturating_add(bytes.into()).min(self.limit.burst.into());
        }
    }

    fn in_debt(mut self, now: u64) -> bool {
        self.refill(now);
        !self.limit.off() && self.available < 0
    }
}

fn outbound(call: &GossipCall, words: &mut GossipWords, rows: &mut Vec<GossipRow>) -> Answer {
    let (bytes, now) = (call.bytes, call.now);
    let mut global = Bucket {
        limit: limit_of(words, GLOBAL_RATE),
        available: words.global().available.as_i128().unwrap(),
        last: words.longs[GLOBAL_REFILL],
    };
    let limit = limit_of(words, PEER_RATE);
    let found = find(rows, call);
    let full = found.is_none() && rows.len() == 1_024;
    let row = found.map(|at| Bucket {
        limit,
        available: rows[at].amount().as_i128().unwrap(),
        last: rows[at].numbers[3],
    });
    let mut peer = row.unwrap_or(Bucket {
        limit,
        available: limit.burst.into(),
        last: 0,
    });
    let answer = match call.operation {
        6 => {
            if !global.consume(bytes, now) || !peer.consume(bytes, now) {
                return yes_or_no(false);
            }
            yes_or_no(true)
        }
        7 => return Answer::value(global.delay(bytes, now).max(row.map_or(0, |row| row.delay(bytes, now)))),
        8 => {
            rows.retain(|row| row.key != call.key);
            return DONE;
        }
        9 => Answer::value(global.reserve(bytes, now).max(peer.reserve(bytes, now))),
        10 => {
            global.refund(bytes, now);
            peer.refund(bytes, now);
            DONE
        }
        _ => {
            let indebted = global.in_debt(now) || row.is_some_and(|row| row.in_debt(now));
            return yes_or_no(exceeds(words, bytes) && !indebted);
        }
    };
    let keeps_row = call.operation != 10 || !limit.off();
    if keeps_row && full {
        return refused(5);
    }
    let mut bucket = words.global();
    (bucket.available, bucket.last_refill) = (Amount::of(global.available), global.last);
    words.set_global(&bucket);
    if keeps_row {
        rows.retain(|row| row.key != call.key);
        let [sign, low, high] = Amount::of(peer.available).words();
        let (key, numbers) = (call.key, [sign, low, high, peer.last]);
        insert(rows, GossipRow { key, numbers });
    }
    answer
}
