//! The comparison of the unchanged Rust with a port of it, and what is built on it.
//!
//! `calls` makes traces up, `both_sides` runs one and compares after each call, `compare` runs many of them,
//! `shrink` makes a mismatch small, `show` writes it down. `gossip` is the gossip policy's part, `snapshots` that of the snapshots.
//! `lists` are the recorded answers, `mutants` the edits of the self-test, `walk` the yardstick of the bench.

pub mod amounts;
pub mod both_sides;
pub mod calls;
pub mod compare;
pub mod damage;
pub mod dice;
pub mod gossip;
pub mod inputs;
pub mod lists;
pub mod mutants;
pub mod settings;
pub mod show;
pub mod shrink;
pub mod snapshots;
pub mod tally;
pub mod trace;
pub mod walk;
pub mod watch;
