//! Makes a trace on which the sides differ short and its numbers small, keeping that they differ.

mod gossip;

use crate::both_sides::Difference;
use crate::trace::{Kind, Trace};
use std::time::{Duration, Instant};

/// How many traces may be tried, and for how long: a table of 1,024 rows makes each try slow.
const MOST_TRIES: usize = 20_000;
const LONGEST: Duration = Duration::from_secs(20);

pub struct Shrinker<'a> {
    differs: &'a mut dyn FnMut(&Trace) -> Option<Difference>,
    tries: usize,
    began: Instant,
}

impl<'a> Shrinker<'a> {
    pub fn new(differs: &'a mut dyn FnMut(&Trace) -> Option<Difference>) -> Self {
        Self {
            differs,
            tries: 0,
            began: Instant::now(),
        }
    }

    pub fn shrink(&mut self, trace: &Trace) -> Trace {
        let mut small = trace.clone();
        loop {
            let size = weight(&small);
            self.cut_after_difference(&mut small);
            self.delete_calls(&mut small);
            self.delete_lines(&mut small);
            self.delete_rows(&mut small);
            self.forget_the_start(&mut small);
            self.shrink_gossip_start(&mut small);
            self.move_times(&mut small);
            self.lower_numbers(&mut small);
            self.rename_keys(&mut small);
            if weight(&small) >= size || self.is_over() {
                return small;
            }
        }
    }

    fn is_over(&self) -> bool {
        self.tries >= MOST_TRIES || self.began.elapsed() > LONGEST
    }

    /// Takes the candidate over if the sides still differ on it.
    fn take(&mut self, small: &mut Trace, candidate: Trace) -> bool {
        if self.is_over() || !candidate.is_valid() {
            return false;
        }
        self.tries += 1;
        let differs = (self.differs)(&candidate).is_some();
        if differs {
            *small = candidate;
        }
        differs
    }

    fn cut_after_difference(&mut self, small: &mut Trace) {
        if let Some(difference) = (self.differs)(small) {
            small.calls.truncate(difference.at + 1);
        }
    }

    /// Halves first, then ever shorter runs.
    fn delete_calls(&mut self, small: &mut Trace) {
        let mut run = small.calls.len().div_ceil(2);
        while run > 0 {
            let mut at = 0;
            while at < small.calls.len() {
                let mut candidate = small.clone();
                let end = (at + run).min(candidate.calls.len());
                candidate.calls.drain(at..end);
                if !self.take(small, candidate) {
                    at += run;
                }
            }
            run /= 2;
        }
    }

    /// Of an input of the trace program.
    fn delete_lines(&mut self, small: &mut Trace) {
        let lines = |trace: &Trace| -> Vec<Vec<u8>> {
            let lines = trace.input.bytes.split_inclusive(|byte| *byte == b'\n');
            lines.map(<[u8]>::to_vec).collect()
        };
        let mut run = lines(small).len().div_ceil(2);
        while run > 0 {
            let mut at = 0;
            while at < lines(small).len() {
                let mut left = lines(small);
                let end = (at + run).min(left.len());
                left.drain(at..end);
                let mut candidate = small.clone();
                candidate.input.bytes = left.concat();
                if !self.take(small, candidate) {
                    at += run;
                }
            }
            run /= 2;
        }
    }

    fn delete_rows(&mut self, small: &mut Trace) {
        let mut run = small.start.rows.len().div_ceil(2);
        while run > 0 {
            let mut at = 0;
            while at < small.start.rows.len() {
                let mut candidate = small.clone();
                let end = (at + run).min(candidate.start.rows.len());
                candidate.start.rows.drain(at..end);
                if !self.take(small, candidate) {
                    at += run;
                }
            }
            run /= 2;
        }
    }

    fn forget_the_start(&mut self, small: &mut Trace) {
        let mut candidate = small.clone();
        candidate.start.in_flight = [0, 0];
        self.take(small, candidate);
        for (spare, filler) in [(0, 0), (small.start.spare, 0), (0, small.start.filler)] {
            let mut candidate = small.clone();
            (candidate.start.spare, candidate.start.filler) = (spare, filler);
            if self.take(small, candidate) {
                break;
            }
        }
    }

    /// All times of a trace on peers or gossip earlier by the same amount: each by itself often can't move.
    fn move_times(&mut self, small: &mut Trace) {
        let time = match small.kind {
            Kind::Peers | Kind::Snapshots => 3,
            Kind::Bans | Kind::Limiter | Kind::Gossip => 4,
            _ => return,
        };
        for shift in (0..64).rev() {
            let mut candidate = small.clone();
            for call in &mut candidate.calls {
                call[time] = call[time].saturating_sub(1 << shift);
            }
            if candidate
                .calls
                .iter()
                .zip(&small.calls)
                .any(|(a, b)| a[time] != b[time])
            {
                self.take(small, candidate);
            }
        }
    }

    fn lower_numbers(&mut self, small: &mut Trace) {
        for call in 0..small.calls.len() {
            for word in 1..8 {
                self.lower(small, &|trace| Some(&mut trace.calls[call][word]));
            }
        }
        for setting in 0..9 {
            self.lower(small, &|trace| Some(&mut trace.start.settings[setting]));
        }
        for place in 0..2 {
            self.lower(small, &|trace| Some(&mut trace.start.in_flight[place]));
        }
        for row in 0..small.start.rows.len().min(8) {
            for number in 0..11 {
                self.lower(small, &|trace| {
                    trace.start.rows.get_mut(row).map(|row| &mut row.1[number])
                });
            }
        }
    }

    /// To 0, else down by ever smaller powers of two.
    fn lower(&mut self, small: &mut Trace, place: &dyn Fn(&mut Trace) -> Option<&mut u64>) {
        let mut now = small.clone();
        let Some(number) = place(&mut now).map(|number| *number).filter(|n| *n > 0) else {
            return;
        };
        let mut candidate = small.clone();
        *place(&mut candidate).unwrap() = 0;
        if self.take(small, candidate) {
            return;
        }
        let mut left = number;
        for power in (0..=number.ilog2()).rev() {
            let step = 1 << power;
            if left > step {
                let mut candidate = small.clone();
                *place(&mut candidate).unwrap() = left - step;
                if self.take(small, candidate) {
                    left -= step;
                }
            }
        }
    }

    /// Keys that nobody names go; the others become 33 equal bytes, in the same order.
    fn rename_keys(&mut self, small: &mut Trace) {
        if small.keys.is_empty() {
            return;
        }
        let mut used: Vec<usize> = small.start.rows.iter().map(|row| row.0).collect();
        used.extend(small.calls.iter().map(|call| call[1] as usize));
        used.sort_by_key(|place| small.keys[*place]);
        used.dedup();
        let mut candidate = small.clone();
        let place = |old: usize| used.iter().position(|used| *used == old).unwrap();
        candidate.keys = used.iter().map(|old| small.keys[*old]).collect();
        for row in &mut candidate.start.rows {
            row.0 = place(row.0);
        }
        for call in &mut candidate.calls {
            call[1] = place(call[1] as usize) as u64;
        }
        if self.take(small, candidate) && small.keys.len() < 250 {
            let mut candidate = small.clone();
            for (place, key) in candidate.keys.iter_mut().enumerate() {
                *key = [place as u8 + 2; 33];
            }
            self.take(small, candidate);
        }
    }
}

fn digits(numbers: &[u64]) -> usize {
    numbers.iter().map(|n| 64 - n.leading_zeros() as usize).sum()
}

/// What gets smaller: calls and rows first, then the digits of all numbers.
fn weight(trace: &Trace) -> (usize, usize) {
    let calls: usize = trace.calls.iter().map(|call| digits(call)).sum();
    let rows: usize = trace.start.rows.iter().map(|row| digits(&row.1)).sum();
    let start = digits(&trace.start.settings) + digits(&trace.start.in_flight);
    let gossip = gossip::weight(trace);
    (
        trace.calls.len() + trace.start.rows.len() + gossip.0,
        calls + rows + start + trace.keys.len() + trace.input.bytes.len() + gossip.1,
    )
}
