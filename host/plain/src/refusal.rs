//! The answers by number: 0 accepts, and each other number is one reason to refuse.

pub const ACCEPTED: u8 = 0;
pub const LENGTH: u8 = 1;
pub const PREFIX: u8 = 2;
pub const PAST_END: u8 = 3;
pub const FLAG: u8 = 4;
pub const TWO_ACKS: u8 = 5;
pub const LEFT_OVER: u8 = 6;
pub const NUMBER: u8 = 7;
pub const ACKNOWLEDGEMENT: u8 = 8;
pub const WINDOW_FULL: u8 = 9;
pub const TOO_WIDE: u8 = 10;
pub const NOTHING: u8 = 11;
pub const USED_UP: u8 = 12;
pub const INCONSISTENT: u8 = 13;
pub const OUTPUT: u8 = 14;
pub const OPENING: u8 = 15;
pub const SENT_OUT: u8 = 22;

/// Turns the result of a call without a value into its number.
pub(crate) fn answer(result: Result<(), u8>) -> u8 {
    result.err().unwrap_or(ACCEPTED)
}
