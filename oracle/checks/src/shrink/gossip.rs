//! The gossip policy's part of making a trace small: rows of each table, the words that it begins with, and its keys.

use super::{digits, Shrinker};
use crate::trace::Trace;

impl Shrinker<'_> {
    pub(super) fn shrink_gossip_start(&mut self, small: &mut Trace) {
        if small.kind.gossip_subject().is_none() {
            return;
        }
        for table in 0..2 {
            self.delete_gossip_rows(small, table);
        }
        for table in 0..2 {
            self.lower(small, &|trace| Some(&mut trace.gossip.spare[table]));
        }
        self.lower(small, &|trace| Some(&mut trace.gossip.filler));
        for place in 0..10 {
            self.lower(small, &|trace| Some(&mut trace.gossip.longs[place]));
        }
        for place in 0..6 {
            self.lower(small, &|trace| Some(&mut trace.gossip.shorts[place]));
        }
        for table in 0..2 {
            for row in 0..small.gossip.rows[table].len().min(8) {
                for number in 0..4 {
                    self.lower(small, &|trace| {
                        let row = trace.gossip.rows[table].get_mut(row);
                        row.map(|row| &mut row.1[number])
                    });
                }
            }
        }
        self.rename_gossip_keys(small);
    }

    fn delete_gossip_rows(&mut self, small: &mut Trace, table: usize) {
        let mut run = small.gossip.rows[table].len().div_ceil(2);
        while run > 0 {
            let mut at = 0;
            while at < small.gossip.rows[table].len() {
                let mut candidate = small.clone();
                let rows = &mut candidate.gossip.rows[table];
                let end = (at + run).min(rows.len());
                rows.drain(at..end);
                if !self.take(small, candidate) {
                    at += run;
                }
            }
            run /= 2;
        }
    }

    /// Keys that nobody names go; the others become zeros but for the first byte (and the limiter's side), in the same order.
    fn rename_gossip_keys(&mut self, small: &mut Trace) {
        let mut used: Vec<usize> = small.gossip.rows.iter().flatten().map(|row| row.0).collect();
        used.extend(small.calls.iter().map(|call| call[1] as usize));
        used.sort_by_key(|place| small.gossip.keys[*place]);
        used.dedup();
        let mut candidate = small.clone();
        let place = |old: usize| used.iter().position(|used| *used == old).unwrap();
        candidate.gossip.keys = used.iter().map(|old| small.gossip.keys[*old]).collect();
        for row in candidate.gossip.rows.iter_mut().flatten() {
            row.0 = place(row.0);
        }
        for call in &mut candidate.calls {
            call[1] = place(call[1] as usize) as u64;
        }
        if self.take(small, candidate) && small.gossip.keys.len() < 250 {
            let mut candidate = small.clone();
            for (place, key) in candidate.gossip.keys.iter_mut().enumerate() {
                let side = key[69];
                *key = [0; 70];
                (key[0], key[69]) = (place as u8 + 2, side);
            }
            self.take(small, candidate);
        }
    }
}

pub(super) fn weight(trace: &Trace) -> (usize, usize) {
    let start = &trace.gossip;
    let rows = start.rows.iter().flatten();
    let numbers: usize = rows.clone().map(|row| digits(&row.1)).sum();
    let words = digits(&start.longs) + digits(&start.shorts) + digits(&start.spare) + digits(&[start.filler]);
    (rows.count(), numbers + words + start.keys.len())
}
