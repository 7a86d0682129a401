//! Snapshots. The Rust has none: `form` lays its state out as docs/REFERENCE.md says ("Snapshots") and judges any bytes, apart from any
//! port; `left` is what each function must leave; `asks` has a port write, read and be asked, and compares all that is lent; `damage` makes wrong snapshots of known sorts.

pub mod asks;
pub mod damage;
pub mod form;
pub mod left;

/// The operations of a trace on snapshots: the peers' calls, so that what was read is gone on with, then these.
pub const OPERATIONS: [&str; 12] = [
    "admit",
    "record_invalid",
    "is_banned",
    "on_disconnected",
    "release_ingress",
    "in_flight",
    "held_time",
    "write",
    "read, and write again",
    "ask for a kind",
    "row at a place",
    "walk the rows",
];

pub const WRITE: u64 = 7;
pub const READ: u64 = 8;
pub const PLACE: u64 = 9;
pub const ROW_AT: u64 = 10;
pub const WALK: u64 = 11;
