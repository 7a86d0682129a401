//! The operations on 128-bit amounts, in the order of their numbers in a recorded list.

pub const NAMES: [&str; 13] = [
    "from_u64",
    "is_negative",
    "is_below",
    "is_above",
    "lesser",
    "saturating_add",
    "saturating_sub",
    "deficit",
    "to_u64",
    "is_i128",
    "product_per_thousand",
    "times_thousand",
    "div_ceil_low",
];

pub const FROM_U64: u64 = 0;
pub const IS_NEGATIVE: u64 = 1;
pub const IS_BELOW: u64 = 2;
pub const IS_ABOVE: u64 = 3;
pub const LESSER: u64 = 4;
pub const SATURATING_ADD: u64 = 5;
pub const SATURATING_SUB: u64 = 6;
pub const DEFICIT: u64 = 7;
pub const TO_U64: u64 = 8;
pub const IS_I128: u64 = 9;
pub const PRODUCT_PER_THOUSAND: u64 = 10;
pub const TIMES_THOUSAND: u64 = 11;
pub const DIV_CEIL_LOW: u64 = 12;
