//! The sender's record: its data numbers and blocks under way, and when it is consistent.

mod calls;

use crate::numbers::{place, FIRST_MOST, PAST, WINDOW};
use crate::wire;

/// The longest block that is sent.
pub const BLOCK_MOST: usize = 1_223;
/// How often a block is sent at most.
pub const SENDS_MOST: u8 = 6;
/// The shortest and longest loss timeout in milliseconds.
pub const TIMEOUT_LEAST: u32 = 300;
pub const TIMEOUT_MOST: u32 = 60_000;

#[derive(Clone, Copy, PartialEq, Eq, Debug, Default)]
#[repr(u8)]
pub enum NumberState {
    #[default]
    Unused,
    Pending,
    Received,
    Lost,
}

#[derive(Clone, Copy, PartialEq, Eq, Debug, Default)]
#[repr(u8)]
pub enum BlockState {
    #[default]
    Vacant,
    InFlight,
    Waiting,
    Acknowledged,
}

/// What is known of one data number: its block's channel number and the tick it was sent at.
#[derive(Clone, Copy, PartialEq, Eq, Debug, Default)]
pub struct NumberPlace {
    pub state: NumberState,
    pub channel: u64,
    pub tick: u32,
}

/// What is known of one block: its length, and how often it was sent.
#[derive(Clone, Copy, PartialEq, Eq, Debug, Default)]
pub struct BlockPlace {
    pub state: BlockState,
    pub sends: u8,
    pub len: u16,
}

/// Data numbers run from `low` up to `next`, blocks from `channel_low` up to `channel_next`. `log_window` is the peer's
/// LogWindowSize, as its last accepted packet gave it; a dummy gives none.
#[derive(Clone, Copy, PartialEq, Eq, Debug)]
pub struct Sender {
    pub first_data: u64,
    pub first_channel: u64,
    pub timeout: u32,
    pub log_window: u8,
    pub low: u64,
    pub next: u64,
    pub channel_low: u64,
    pub channel_next: u64,
    pub numbers: [NumberPlace; 32],
    pub blocks: [BlockPlace; 32],
}

impl Sender {
    /// Makes a record under which nothing was sent yet.
    pub fn open(first_data: u16, first_channel: u16, timeout: u32) -> Sender {
        let (data, channel) = (u64::from(first_data), u64::from(first_channel));
        Sender {
            first_data: data,
            first_channel: channel,
            timeout,
            log_window: wire::LOG_WINDOW as u8,
            low: data,
            next: data,
            channel_low: channel,
            channel_next: channel,
            numbers: [NumberPlace::default(); 32],
            blocks: [BlockPlace::default(); 32],
        }
    }

    pub fn is_consistent(&self) -> bool {
        (TIMEOUT_LEAST..=TIMEOUT_MOST).contains(&self.timeout)
            && is_range(self.first_data, self.low, self.next)
            && is_range(self.first_channel, self.channel_low, self.channel_next)
            && self.blocks_of_pending().is_some_and(|pending| self.blocks_fit(pending))
    }

    /// Judges the number places and gives the set of block places that have a pending number.
    fn blocks_of_pending(&self) -> Option<u32> {
        let mut blocks = 0;
        for n in self.low..self.low + WINDOW {
            let number = &self.numbers[place(n)];
            let in_range = n < self.next;
            let fits = match number.state {
                NumberState::Unused => !in_range && number.channel == 0 && number.tick == 0,
                NumberState::Pending => {
                    let bit = 1 << place(number.channel);
                    let is_only = blocks & bit == 0;
                    blocks |= bit;
                    in_range
                        && is_only
                        && (self.channel_low..self.channel_next).contains(&number.channel)
                }
                NumberState::Received | NumberState::Lost => {
                    in_range
                        && n != self.low
                        && (self.first_channel..self.channel_next).contains(&number.channel)
                }
            };
            if !fits {
                return None;
            }
        }
        Some(blocks)
    }

    /// Judges the block places: exactly those in flight have a pending number.
    fn blocks_fit(&self, pending: u32) -> bool {
        (self.channel_low..self.channel_low + WINDOW).all(|c| {
            let block = &self.blocks[place(c)];
            let in_range = c < self.channel_next;
            let is_flying = block.state == BlockState::InFlight;
            let is_counted = in_range && (1..=SENDS_MOST).contains(&block.sends);
            let fits = match block.state {
                BlockState::Vacant => !in_range && block.len == 0 && block.sends == 0,
                BlockState::InFlight | BlockState::Waiting => is_counted,
                BlockState::Acknowledged => is_counted && c != self.channel_low,
            };
            fits && usize::from(block.len) <= BLOCK_MOST
                && is_flying == (pending & 1 << place(c) != 0)
        })
    }
}

/// Says whether a range runs forwards within its bounds and has at most 32 numbers.
fn is_range(first: u64, low: u64, next: u64) -> bool {
    first <= FIRST_MOST && first <= low && low <= next && next <= PAST && next - low <= WINDOW
}
