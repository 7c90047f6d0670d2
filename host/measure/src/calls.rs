//! The calls of a batch by either side: which exported loop, or which loop of the plain program, a kind of work is.

use crate::ours::{self, Both, Parts};
use crate::rows::Work;
use crate::theirs;
use plain::receiver::Receiver;
use plain::sender::Sender;
use std::hint::black_box;

/// The tick at which blocks are sent.
const TICK: u32 = 4_294_967_000;

/// What is lent to the calls: the store, the output, and places for the answers (`long` where a call writes).
pub struct Lent<'a> {
    pub store: &'a mut [u8],
    pub out: &'a mut [u8],
    pub short: &'a mut [u8],
    pub long: &'a mut [u32],
}

/// By the proved endpoint. Only the records that the work concerns are written to `after`.
pub fn ourly(work: Work, before: &Both, after: &mut Both, parts: Parts, lent: Lent) {
    let Lent { store, out, short, long } = lent;
    match work {
        Work::Read => {
            for (answer, d) in short.iter_mut().zip(parts.iter()) {
                *answer = black_box(&ours::read(d)).answer;
            }
        }
        Work::Acknowledge => ours::acknowledge(&before.sender, &mut after.sender, parts, short),
        Work::Receive => ours::receive(before, after, store, parts, short),
        Work::Send => ours::send(&before.sender, &mut after.sender, store, TICK, parts, out, long),
        Work::Take => ours::take(&before.receiver, &mut after.receiver, store, out, long),
    }
}

/// By the plain program, with the check of each call or without it.
pub fn plainly<const CHECK: bool>(
    work: Work,
    sender: &mut Sender,
    receiver: &mut Receiver,
    parts: Parts,
    lent: Lent,
) {
    let Lent { store, out, short, long } = lent;
    match work {
        Work::Read => {
            for (answer, d) in short.iter_mut().zip(parts.iter()) {
                *answer = black_box(&theirs::read(d)).err().unwrap_or(0);
            }
        }
        Work::Acknowledge => theirs::acknowledge::<CHECK>(sender, parts, short),
        Work::Receive => theirs::receive::<CHECK>(sender, receiver, store, parts, short),
        Work::Send => theirs::send::<CHECK>(sender, store, TICK, parts, out, long),
        Work::Take => theirs::take::<CHECK>(receiver, store, out, long),
    }
}
