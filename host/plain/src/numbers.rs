//! Arithmetic of numbers: widening a 16-bit field, a number's place, and the age of a tick.

use std::ops::RangeBounds;

/// The count of places in every range.
pub const WINDOW: u64 = 32;
/// One more than the highest full number.
pub const PAST: u64 = 1 << 32;
/// The highest first number that opening takes.
pub const FIRST_MOST: u64 = 65_535;

/// Finds the number nearest to the reference that ends in the field's 16 bits. There is none where two are as near.
///
/// The signed 16-bit step is −32,768 to 32,767, and −32,768 is no nearer than 32,768. The reference is at most `PAST`.
pub fn widen(reference: u64, field: u16) -> Option<i64> {
    let step = field.wrapping_sub(reference as u16) as i16;
    (step != i16::MIN).then(|| reference as i64 + i64::from(step))
}

/// Widens a field and keeps the number only if there is one and it lies in the range.
pub(crate) fn widen_into(reference: u64, field: u16, range: impl RangeBounds<u64>) -> Option<u64> {
    let wide = u64::try_from(widen(reference, field)?).ok()?;
    range.contains(&wide).then_some(wide)
}

/// Says how long ago a tick was, where a tick of the future counts as now.
pub fn age(now: u32, sent: u32) -> u32 {
    let age = now.wrapping_sub(sent);
    if age < 1 << 31 {
        age
    } else {
        0
    }
}

/// Gives the place of a data or channel number.
pub fn place(number: u64) -> usize {
    (number % WINDOW) as usize
}
