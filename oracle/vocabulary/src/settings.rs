//! Calls on settings alone, as eight words: the operation's number, then its operands.

use crate::{Settings, Words};

/// The operations on the peers' settings, then those on a byte limit.
pub const NAMES: [&str; 8] = [
    "default settings",
    "with_limits",
    "message_limit_disabled",
    "ban_disabled",
    "is_unlimited",
    "default_global",
    "default_peer",
    "byte is_disabled",
];

#[derive(Clone, Copy, Debug, PartialEq, Eq)]
pub enum PeerSettingsOperation {
    Default,
    /// The defaults, but for the number of tracked peers and the ceiling, which are those given.
    WithLimits,
    MessageLimitDisabled,
    BanDisabled,
    IsUnlimited,
}

#[derive(Clone, Copy, Debug, PartialEq, Eq)]
pub enum LimitOperation {
    DefaultGlobal,
    DefaultPeer,
    IsDisabled,
}

/// An operation and what it is given; a byte limit is a rate and a burst.
#[derive(Clone, Copy, Debug)]
pub enum SettingsCall {
    Peers(PeerSettingsOperation, Settings),
    Bytes(LimitOperation, [u64; 2]),
}

/// A call whose operands are within their fields.
pub fn read(call: &Words) -> SettingsCall {
    use {LimitOperation as L, PeerSettingsOperation as P};
    let given = given(call).expect("numbers within their fields");
    let limit = [call[1], call[2]];
    match call[0] {
        0 => SettingsCall::Peers(P::Default, given),
        1 => SettingsCall::Peers(P::WithLimits, given),
        2 => SettingsCall::Peers(P::MessageLimitDisabled, given),
        3 => SettingsCall::Peers(P::BanDisabled, given),
        4 => SettingsCall::Peers(P::IsUnlimited, given),
        5 => SettingsCall::Bytes(L::DefaultGlobal, limit),
        6 => SettingsCall::Bytes(L::DefaultPeer, limit),
        7 => SettingsCall::Bytes(L::IsDisabled, limit),
        other => panic!("no settings operation {other}"),
    }
}

/// The settings that operands name: interval, burst, threshold, tracked peers, the ceiling's messages and bytes, and one number for
/// the other three. On a byte limit the operands are its rate and burst.
pub fn given(call: &Words) -> Option<Settings> {
    if call[0] > 4 {
        return Settings::from_words(&[0; 9]);
    }
    let [_, interval, burst, threshold, tracked, messages, bytes, other] = *call;
    Settings::from_words(&[
        interval, burst, other, other, threshold, other, tracked, messages, bytes,
    ])
}

/// A byte limit where nine numbers are compared.
pub fn as_nine(limit: &[u64; 2]) -> [u64; 9] {
    let mut nine = [0; 9];
    nine[..2].copy_from_slice(limit);
    nine
}
