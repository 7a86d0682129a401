//! The C functions of the proved library, linked, and each behind a safe function.
//!
//! Use crate `uglezmir`, which has the Rust's own names and owns its memory; this one is what it stands on. A policy crosses as words in which
//! nothing can be out of range, a table as lent bytes, an answer as a number (module [`numbers`]). No function asks anything of its arguments:
//! each takes any words over any memory, and answers a refusal where they make no sense.
//!
//! What the proofs don't see, this crate answers for: no pointer is null, every length is true, and no two lendings overlap. The types of the safe
//! functions rule all of that out. That the declarations in [`ffi`] are those of the library's sources is what `tests/declarations.rs` looks at.
//!
//! `build.rs` says where the archives come from.

pub mod buckets;
pub mod ffi;
pub mod gossip;
pub mod numbers;
pub mod peers;
pub mod snapshots;
pub mod traces;

/// A peer's key.
pub type PeerKey = [u8; numbers::PEER_KEY];
/// A channel's out point.
pub type OutPointKey = [u8; numbers::OUTPOINT_KEY];

// SAFETY, of every call in this crate: the functions take any values (none has a `requires`); the pointers and lengths are those of slices and
// arrays that are borrowed for the call; and what is borrowed to be changed overlaps with nothing. Where a slice is only lent to be read and a
// function would take it to be changed, the place says why it isn't.
