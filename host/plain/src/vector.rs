//! Acknowledgement vectors: the states that coded bytes say, and the bytes that say given states.

const RUN: u8 = 0x80;
const RUN_STATE: u8 = 0x40;
const RUN_LENGTH: u8 = 0x3f;
const MAP_LENGTH: usize = 7;

/// Yields one state after the other, `true` for received.
pub fn states(bytes: impl Iterator<Item = u8>) -> impl Iterator<Item = bool> {
    bytes.flat_map(|byte| {
        let is_run = byte & RUN != 0;
        let count = if is_run { byte & RUN_LENGTH } else { 7 };
        (0..count).map(move |i| {
            let bit = if is_run { RUN_STATE } else { 1 << i };
            byte & bit != 0
        })
    })
}

/// Yields the bytes of the vector that says these states.
///
/// A run longer than seven becomes a run byte, anything else a map of the next seven states.
pub fn bytes(states: &[bool]) -> impl Iterator<Item = u8> + '_ {
    let mut rest = states;
    std::iter::from_fn(move || {
        let state = *rest.first()?;
        let longest = rest.iter().take(usize::from(RUN_LENGTH));
        let run = longest.take_while(|next| **next == state).count();
        let byte = if run > MAP_LENGTH {
            rest = &rest[run..];
            RUN | if state { RUN_STATE } else { 0 } | run as u8
        } else {
            let (map, after) = rest.split_at(rest.len().min(MAP_LENGTH));
            rest = after;
            map.iter().rev().fold(0, |byte, s| byte << 1 | u8::from(*s))
        };
        Some(byte)
    })
}
