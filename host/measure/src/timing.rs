//! Timed runs: the calls of a row by one side, in processor time.

use crate::calls::{self, Lent};
use crate::compare::ROOM;
use crate::ours::Both;
use crate::rows::{Row, Start, Work};
use std::hint::black_box;

/// Who makes the calls.
#[derive(Clone, Copy, PartialEq, Eq, Debug)]
pub enum Side {
    /// The proved endpoint.
    Ours,
    /// The plain program, with the consistency check of each call.
    Plain,
    /// The plain program without it.
    Unchecked,
}

pub const SIDES: [Side; 3] = [Side::Ours, Side::Plain, Side::Unchecked];

/// What a run writes to; cleared alike before each run.
pub struct Room {
    store: Vec<u8>,
    out: Vec<u8>,
    short: Vec<u8>,
    long: Vec<u32>,
    ours: Vec<Both>,
    plain: Vec<(plain::sender::Sender, plain::receiver::Receiver)>,
}

impl Room {
    pub fn new(row: &Row) -> Room {
        let Start { sender, receiver, ours } = row.starts[0];
        Room {
            store: row.store.clone(),
            out: vec![0; ROOM],
            short: vec![0; row.calls()],
            long: vec![0; row.calls()],
            ours: vec![ours; row.batches.len()],
            plain: vec![(sender, receiver); row.batches.len()],
        }
    }

    fn clear(&mut self, row: &Row) {
        let Start { sender, receiver, ours } = row.starts[0];
        self.store.copy_from_slice(&row.store);
        self.out.fill(0);
        self.short.fill(0);
        self.long.fill(0);
        self.ours.fill(ours);
        self.plain.fill((sender, receiver));
    }
}

/// Makes all calls of a row, and gives the processor time of one in nanoseconds.
pub fn run(row: &Row, side: Side, room: &mut Room) -> f64 {
    room.clear(row);
    let began = processor_time();
    match side {
        Side::Ours => ourly(row, room),
        Side::Plain => plainly::<true>(row, room),
        Side::Unchecked => plainly::<false>(row, room),
    }
    let took = processor_time() - began;
    black_box(&room.short);
    took * 1e9 / row.calls() as f64
}

/// All answers of a run, as numbers.
pub fn answers(room: &Room) -> (Vec<u8>, Vec<u32>) {
    (room.short.clone(), room.long.clone())
}

fn ourly(row: &Row, room: &mut Room) {
    for (k, batch) in row.batches.iter().enumerate() {
        let before = &row.starts[batch.start].ours;
        let lent = Lent {
            store: &mut room.store,
            out: &mut room.out,
            short: &mut room.short[batch.calls.clone()],
            long: &mut room.long[batch.calls.clone()],
        };
        calls::ourly(row.work, before, &mut room.ours[k], row.parts(batch), lent);
    }
}

fn plainly<const CHECK: bool>(row: &Row, room: &mut Room) {
    for (k, batch) in row.batches.iter().enumerate() {
        let start = &row.starts[batch.start];
        let (sender, receiver) = &mut room.plain[k];
        let lent = Lent {
            store: &mut room.store,
            out: &mut room.out,
            short: &mut room.short[batch.calls.clone()],
            long: &mut room.long[batch.calls.clone()],
        };
        // As on the proved side, the records that the work concerns go in by value.
        match row.work {
            Work::Read => {}
            Work::Acknowledge | Work::Send => *sender = start.sender,
            Work::Receive => (*sender, *receiver) = (start.sender, start.receiver),
            Work::Take => *receiver = start.receiver,
        }
        calls::plainly::<CHECK>(row.work, sender, receiver, row.parts(batch), lent);
    }
}

/// The processor time of this program so far, in seconds.
fn processor_time() -> f64 {
    extern "C" {
        fn clock() -> std::ffi::c_long;
    }
    // SAFETY: it takes nothing and only reads a clock; POSIX fixes its unit at a microsecond.
    unsafe { clock() as f64 / 1e6 }
}
