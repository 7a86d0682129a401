//! Which messages of which peers a node lets in: `peer_message_policy.rs`.
//!
//! Each peer has a bucket of messages and one of bytes, and a count of violations within a window, which bans; all peers share a ceiling on the load
//! in flight. [`PeerMessagePolicy`] answers as the Rust does, and where it is asked to, it also says why ([`Cause`]). [`HeldPeerMessagePolicy`] is the same, shielded from a clock that steps back.

mod cause;
mod config;
mod held;
mod policy;

pub use cause::{Cause, Limit, Shortage};
pub use config::PeerMessagePolicyConfig;
pub use held::HeldPeerMessagePolicy;
pub use policy::{PeerMessageAdmission, PeerMessagePolicy};
