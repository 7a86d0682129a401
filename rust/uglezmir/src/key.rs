/// What a peer or a channel is known by: `N` bytes, 33 of a public key, 36 of an out point. They are compared byte by byte from the first.
///
/// The node implements it for its own types, a line each. `Owner` is any type of the node's own crate: the trait comes from here and the keys from
/// elsewhere, and Rust lets a third crate join the two only where a type of its own stands in the line. No call ever names it.
///
/// ```
/// # mod fiber_types { pub struct Pubkey(pub [u8; 33]); }
/// # mod packed { pub struct OutPoint([u8; 36]); impl OutPoint { pub fn as_slice(&self) -> &[u8] { &self.0 } } }
/// # use fiber_types::Pubkey; use packed::OutPoint;
/// struct Node;
/// impl uglezmir::Key<33, Node> for Pubkey { fn key_bytes(&self) -> [u8; 33] { self.0 } }
/// impl uglezmir::Key<36, Node> for OutPoint { fn key_bytes(&self) -> [u8; 36] { self.as_slice().try_into().expect("36 bytes") } }
///
/// let mut policy = uglezmir::peer_message_policy::PeerMessagePolicy::default();
/// assert!(!policy.is_banned(&Pubkey([2; 33]), 50));
/// ```
///
/// Plain arrays are keys too.
pub trait Key<const N: usize, Owner = ()> {
    /// The bytes, the same at every call.
    fn key_bytes(&self) -> [u8; N];
}

impl<const N: usize> Key<N> for [u8; N] {
    fn key_bytes(&self) -> [u8; N] {
        *self
    }
}
