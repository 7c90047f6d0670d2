//! Datagrams: what a packet holds, and how places in it map to the lent bytes.
//!
//! A place counts in the datagram after its first and eighth byte were exchanged, so the prefix
//! has place 0 and the packet begins at place 1.

mod read;
mod write;

pub use read::read;
pub use write::{exchange, write, Values};

pub const ACK: u16 = 0x001;
pub const DATA: u16 = 0x004;
pub const ACKVEC: u16 = 0x008;
pub const AOA: u16 = 0x010;
pub const OVERHEADSIZE: u16 = 0x040;
pub const DELAYACKINFO: u16 = 0x100;
const KNOWN: u16 = ACK | DATA | ACKVEC | AOA | OVERHEADSIZE | DELAYACKINFO;

/// The longest datagram.
pub const DATAGRAM_MOST: usize = 1_232;
/// The shortest datagram, and the place before which the exchange can matter.
pub const DATAGRAM_LEAST: usize = 8;
/// The LogWindowSize this endpoint writes, for a window of 32.
pub const LOG_WINDOW: u32 = 5;

/// An accepted datagram.
#[derive(Clone, Copy, PartialEq, Eq, Debug)]
pub enum Reading {
    Dummy,
    Packet(Packet),
}

/// The fields of a packet as they stand on the wire; a payload that is not flagged is `None`.
#[derive(Clone, Copy, PartialEq, Eq, Debug, Default)]
pub struct Packet {
    pub flags: u16,
    pub log_window: u8,
    pub ack: Option<Ack>,
    pub overhead: Option<u8>,
    pub delay: Option<Delay>,
    pub aoa: Option<u16>,
    pub number: Option<u16>,
    pub vector: Option<Vector>,
    pub body: Option<Body>,
}

/// An ACK payload; its additions are `count` bytes from place `at`.
#[derive(Clone, Copy, PartialEq, Eq, Debug)]
pub struct Ack {
    pub number: u16,
    pub time: u32,
    pub gap: u8,
    pub count: u8,
    pub scale: u8,
    pub at: usize,
}

/// A DelayAckInfo payload.
#[derive(Clone, Copy, PartialEq, Eq, Debug)]
pub struct Delay {
    pub most: u8,
    pub timeout: u16,
}

/// An ACKVEC payload; its coded vector is `size` bytes from place `at`.
#[derive(Clone, Copy, PartialEq, Eq, Debug)]
pub struct Vector {
    pub base: u16,
    pub size: u8,
    pub stamp: Option<Stamp>,
    pub at: usize,
}

/// The optional times of a vector.
#[derive(Clone, Copy, PartialEq, Eq, Debug)]
pub struct Stamp {
    pub time: u32,
    pub gap: u8,
}

/// A DataBody payload; its block is `len` bytes from place `at`.
#[derive(Clone, Copy, PartialEq, Eq, Debug)]
pub struct Body {
    pub channel: u16,
    pub at: usize,
    pub len: usize,
}

/// Reads the byte at a place.
fn byte_at(d: &[u8], place: usize) -> u8 {
    match place {
        0 => d[7],
        7 => d[0],
        _ => d[place],
    }
}

/// Yields the bytes from a place on.
pub fn bytes(d: &[u8], at: usize, len: usize) -> impl Iterator<Item = u8> + '_ {
    (at..at + len).map(|place| byte_at(d, place))
}

/// Copies the bytes from a place on; only those before place 8 need the exchange.
pub fn copy(d: &[u8], at: usize, to: &mut [u8]) {
    let early = DATAGRAM_LEAST.saturating_sub(at).min(to.len());
    let (head, tail) = to.split_at_mut(early);
    for (i, byte) in head.iter_mut().enumerate() {
        *byte = byte_at(d, at + i);
    }
    tail.copy_from_slice(&d[at + early..][..tail.len()]);
}
