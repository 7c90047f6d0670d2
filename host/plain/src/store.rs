//! A block store: 32 places of 1,225 bytes, where block c stands at the start of place c modulo 32.

use crate::numbers::place;

/// The bytes of one place, which is also the longest block a datagram can carry.
pub const PLACE_LEN: usize = 1_225;
/// The bytes of a whole store.
pub const STORE_LEN: usize = 39_200;

/// Lends the bytes of a block that stands in the store.
pub(crate) fn block(store: &[u8], channel: u64, len: u16) -> &[u8] {
    &store[place(channel) * PLACE_LEN..][..usize::from(len)]
}

/// Lends the bytes where a block of this length is to stand.
pub(crate) fn block_mut(store: &mut [u8], channel: u64, len: usize) -> &mut [u8] {
    &mut store[place(channel) * PLACE_LEN..][..len]
}
