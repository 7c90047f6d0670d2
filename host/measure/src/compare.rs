//! Every call made by both sides, and everything that it answers and leaves compared: the answer, all fields of the records, every
//! byte of the store and of the output.

use crate::calls::{self, Lent};
use crate::ours::{self, Both, Parts};
use crate::rows::{Row, Start, Work};
use crate::rule::Rule;
use crate::{alike, theirs};
use std::collections::BTreeMap;
use std::fmt::{Debug, Write};

/// The room that is lent for outputs: the longest datagram, and a little.
pub const ROOM: usize = 1_240;

/// How many calls were compared, and how often each refusal was given (0 for accepted).
#[derive(Default)]
pub struct Compared {
    pub calls: usize,
    pub answers: BTreeMap<u32, usize>,
}

/// What one side has: its records, and what is lent to it.
struct Side<R> {
    records: R,
    store: Vec<u8>,
    out: Vec<u8>,
    /// How many bytes of the output are lent.
    room: usize,
}

/// Makes every call of a row. One batch in sixteen is made again, from a record with one field changed or with little room for
/// the output.
pub fn row(row: &Row, seed: u64) -> Result<Compared, String> {
    let mut rule = Rule(!seed);
    let mut compared = Compared::default();
    let mut ours = Side::new(row, row.starts[0].ours);
    let mut plain = Side::new(row, row.starts[0]);
    for (k, batch) in row.batches.iter().enumerate() {
        let start = row.starts[batch.start];
        let parts = row.parts(batch);
        batch_calls(row, start, parts, true, &mut ours, &mut plain, &mut compared)?;
        if k % 16 == 0 {
            let mut again = start;
            if rule.one_in(2) {
                again = start.spoilt(&mut rule);
            } else {
                ours.room = rule.below(90) as usize;
                plain.room = ours.room;
            }
            batch_calls(row, again, parts, false, &mut ours, &mut plain, &mut compared)?;
            (ours.room, plain.room) = (ROOM, ROOM);
        }
    }
    Ok(compared)
}

impl<R> Side<R> {
    fn new(row: &Row, records: R) -> Side<R> {
        Side { records, store: row.store.clone(), out: vec![0; ROOM], room: ROOM }
    }
}

/// Makes the calls of one batch, one at a time.
fn batch_calls(
    row: &Row,
    start: Start,
    parts: Parts,
    consistent: bool,
    ours: &mut Side<Both>,
    plain: &mut Side<Start>,
    compared: &mut Compared,
) -> Result<(), String> {
    ours.records = start.ours;
    plain.records = start;
    for (i, part) in parts.iter().enumerate() {
        let answer = call(row.work, part, consistent, ours, plain)
            .map_err(|difference| told(row, i, part, &start, &difference))?;
        *compared.answers.entry(if answer >= 256 { 0 } else { answer }).or_default() += 1;
        compared.calls += 1;
    }
    Ok(())
}

/// Makes one call on both sides, and the plain one without its check where the record is consistent. Gives the answer.
fn call(
    work: Work,
    part: &[u8],
    consistent: bool,
    ours: &mut Side<Both>,
    plain: &mut Side<Start>,
) -> Result<u32, String> {
    if work == Work::Read {
        let (a, b) = (ours::read(part), alike::reading(&theirs::read(part)));
        same("reading", &a, &b)?;
        return Ok(u32::from(a.answer));
    }
    let unchecked = consistent.then(|| {
        let mut copy = Side {
            records: plain.records,
            store: plain.store.clone(),
            out: plain.out.clone(),
            room: plain.room,
        };
        let answer = plainly::<false>(work, part, &mut copy);
        (answer, copy)
    });
    let a = ourly(work, part, ours);
    let b = plainly::<true>(work, part, plain);
    same("answer", &a, &b)?;
    let Start { sender, receiver, .. } = &plain.records;
    same("sender's record", &ours.records.sender, &alike::sender(sender))?;
    same("receiver's record", &ours.records.receiver, &alike::receiver(receiver))?;
    same_bytes("store", &ours.store, &plain.store)?;
    same_bytes("output", &ours.out, &plain.out)?;
    if let Some((c, copy)) = unchecked {
        same("answer without the check", &a, &c)?;
        same("sender's record without the check", sender, &copy.records.sender)?;
        same("receiver's record without the check", receiver, &copy.records.receiver)?;
        same_bytes("store without the check", &plain.store, &copy.store)?;
        same_bytes("output without the check", &plain.out, &copy.out)?;
    }
    Ok(a)
}

/// One call of the proved endpoint.
fn ourly(work: Work, part: &[u8], side: &mut Side<Both>) -> u32 {
    let before = side.records;
    one(work, part, &mut side.store, &mut side.out[..side.room], |parts, lent| {
        calls::ourly(work, &before, &mut side.records, parts, lent)
    })
}

/// One call of the plain program.
fn plainly<const CHECK: bool>(work: Work, part: &[u8], side: &mut Side<Start>) -> u32 {
    let Start { sender, receiver, .. } = &mut side.records;
    one(work, part, &mut side.store, &mut side.out[..side.room], |parts, lent| {
        calls::plainly::<CHECK>(work, sender, receiver, parts, lent)
    })
}

/// Makes a call on one part, and gives its answer.
fn one(
    work: Work,
    part: &[u8],
    store: &mut [u8],
    out: &mut [u8],
    call: impl FnOnce(Parts, Lent),
) -> u32 {
    let ends = [part.len() as u32];
    let (mut short, mut long) = ([0xff], [u32::MAX]);
    call(
        Parts { bytes: part, ends: &ends },
        Lent { store, out, short: &mut short, long: &mut long },
    );
    match work {
        Work::Send | Work::Take => long[0],
        Work::Read | Work::Acknowledge | Work::Receive => u32::from(short[0]),
    }
}

fn same<T: PartialEq + Debug>(what: &str, ours: &T, plain: &T) -> Result<(), String> {
    if ours == plain {
        return Ok(());
    }
    Err(format!("{what} differs\n  ours  {ours:?}\n  plain {plain:?}"))
}

fn same_bytes(what: &str, ours: &[u8], plain: &[u8]) -> Result<(), String> {
    if ours == plain {
        return Ok(());
    }
    let at = ours.iter().zip(plain).position(|(a, b)| a != b);
    let at = at.unwrap_or(ours.len().min(plain.len()));
    Err(format!("{what} differs at byte {at}: ours {:?}, plain {:?}", ours.get(at), plain.get(at)))
}

/// What to say of the first difference.
fn told(row: &Row, i: usize, part: &[u8], start: &Start, difference: &str) -> String {
    let mut hex = String::new();
    for byte in part {
        let _ = write!(hex, " {byte:02x}");
    }
    format!(
        "{}, call {i} from a start: {difference}\n  given{hex}\n  start {:?}\n        {:?}",
        row.name, start.sender, start.receiver
    )
}
