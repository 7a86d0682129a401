//! Stand-in for ckb_types: an OutPoint is 36 bytes (a 32-byte transaction hash, a 4-byte index), compared as bytes.

pub mod packed {
    #[derive(Clone, Debug, PartialEq, Eq, Hash)]
    pub struct OutPoint(pub [u8; 36]);
}
