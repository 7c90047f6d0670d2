//! The plain program's calls in the same loops as the proved ones, with the consistency check of each call or without it.

use crate::ours::Parts;
use plain::receiver::Receiver;
use plain::sender::Sender;
use plain::wire::Reading;
use plain::{endpoint, wire};

/// Reads one datagram.
#[inline(never)]
pub fn read(d: &[u8]) -> Result<Reading, u8> {
    wire::read(d)
}

/// Takes datagrams into the sender's half alone.
#[inline(never)]
pub fn acknowledge<const CHECK: bool>(s: &mut Sender, parts: Parts, answers: &mut [u8]) {
    for (answer, d) in answers.iter_mut().zip(parts.iter()) {
        *answer = s.acknowledge::<CHECK>(d);
    }
}

/// Receives datagrams into both halves.
#[inline(never)]
pub fn receive<const CHECK: bool>(
    s: &mut Sender,
    r: &mut Receiver,
    store: &mut [u8],
    parts: Parts,
    answers: &mut [u8],
) {
    for (answer, d) in answers.iter_mut().zip(parts.iter()) {
        *answer = endpoint::receive::<CHECK>(s, r, store, d);
    }
}

/// Sends blocks, each datagram over the one before it.
#[inline(never)]
pub fn send<const CHECK: bool>(
    s: &mut Sender,
    store: &mut [u8],
    tick: u32,
    parts: Parts,
    out: &mut [u8],
    answers: &mut [u32],
) {
    for (answer, block) in answers.iter_mut().zip(parts.iter()) {
        *answer = number(s.send::<CHECK>(store, tick, block, out));
    }
}

/// Takes as many blocks as there are answers, each over the one before it.
#[inline(never)]
pub fn take<const CHECK: bool>(
    r: &mut Receiver,
    store: &[u8],
    out: &mut [u8],
    answers: &mut [u32],
) {
    for answer in answers {
        *answer = number(r.take::<CHECK>(store, out));
    }
}

/// The answer of a call that writes, as one number: the refusal's, or 256 and how many bytes were written.
fn number(written: Result<usize, u8>) -> u32 {
    match written {
        Err(n) => u32::from(n),
        Ok(k) => 256 + k as u32,
    }
}
