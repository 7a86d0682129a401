//! The port's walk beside one written by hand (`checks::walk`), over the same tables and for the same peers.
//!
//! The port's is seen as the held time of a known peer, which judges and finds and writes nothing; the peers are random, as those of admits are.

use super::clock::{medians, time_each};
use super::sides::Lent;
use super::trace::{Trace, SMALL_AND_FULL, THREE_A_MILLISECOND};
use checks::walk::{walk, Place};
use vocabulary::{answer, PeerOperation, Port};

const PASSES: usize = 10_000;

pub fn run<P: Port>(port: &P) {
    for rows in SMALL_AND_FULL {
        let trace = Trace::of_known(rows, PASSES, THREE_A_MILLISECOND);
        let mut lent = Lent::opened(port, &trace);
        for event in &trace.events {
            let place = walk(&lent.record, &lent.table, &event.key);
            assert!(matches!(place, Some(Place::Found(_))), "the walk finds every peer");
        }
        let [by_hand, ours] = medians(|| {
            [
                time_each(&trace.events, |event| walk(&lent.record, &lent.table, &event.key)),
                time_each(&trace.events, |event| {
                    let answer = lent.call(port, &event.call(PeerOperation::HeldTime));
                    assert_eq!(answer.number, answer::DONE);
                }),
            ]
        });
        let ratio = ours / by_hand;
        println!("{rows} rows: hand-written walk {by_hand:.1} ns, port {ours:.1} ns, ratio {ratio:.2}");
    }
}
