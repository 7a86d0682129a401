//! All that a node writes to use `uglezmir` with its own keys.

use ckb_types::packed::OutPoint;
use fiber_types::Pubkey;
use uglezmir::Key;

/// Any type of the node's own: trait and keys both come from other crates, and Rust asks for one then.
pub struct Node;

impl Key<33, Node> for Pubkey {
    fn key_bytes(&self) -> [u8; 33] {
        self.0
    }
}

impl Key<36, Node> for OutPoint {
    fn key_bytes(&self) -> [u8; 36] {
        self.0
    }
}
