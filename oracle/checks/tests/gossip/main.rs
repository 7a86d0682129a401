//! The comparison of the gossip policy, tried with a stand-in for the port: the stand-in passes, and each wrong one is noticed, shown
//! short, and read back.

#![cfg(test)]

mod faults;
mod replay;
mod stand_in;
mod starts;

use checks::compare::{self, Options, Outcome, Part};
use original::UnchangedRust;
use stand_in::StandIn;
use vocabulary::Port;

fn run(port: &dyn Port, calls: u64, seed: u64) -> Outcome {
    let options = Options {
        calls,
        seed,
        watch: true,
        first_only: false,
    };
    compare::run_part(Part::Gossip, &mut UnchangedRust::default(), port, &options)
}

#[test]
fn the_stand_in_is_not_noticed() {
    for seed in 1..4 {
        let outcome = run(&StandIn, 20_000, seed);
        assert_eq!(outcome.tally.mismatches(), 0, "{:?}", outcome.shown);
        assert_eq!(outcome.tally.calls(), 20_000);
    }
}
