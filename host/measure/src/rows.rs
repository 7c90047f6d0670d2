//! The rows that are measured: for each, records to start from and what is then received, sent or taken, eight calls to a start.

use crate::ours::{Both, Parts};
use crate::rule::Rule;
use crate::{alike, made};
use plain::endpoint;
use plain::receiver::Receiver;
use plain::sender::{BlockState, NumberState, Sender};
use plain::store::STORE_LEN;
use std::ops::Range;

/// How many calls are made from one start, each on the record that the one before it left.
const CALLS: usize = 8;
/// How many starts are made for a row; they are used in turn.
const STARTS: usize = 512;
/// One datagram in so many is damaged.
const DAMAGED: u64 = 10;
/// One datagram in so many is a dummy.
const DUMMIES: u64 = 100;

#[derive(Clone, Copy, PartialEq, Eq, Debug)]
pub enum Work {
    Read,
    Acknowledge,
    Receive,
    Send,
    Take,
}

/// Both records of an endpoint, as each side has them.
#[derive(Clone, Copy)]
pub struct Start {
    pub sender: Sender,
    pub receiver: Receiver,
    pub ours: Both,
}

/// The calls that are made from one start.
pub struct Batch {
    pub start: usize,
    bytes: Range<usize>,
    pub calls: Range<usize>,
}

pub struct Row {
    pub name: &'static str,
    pub work: Work,
    pub starts: Vec<Start>,
    pub batches: Vec<Batch>,
    /// All datagrams or blocks, one after another.
    bytes: Vec<u8>,
    /// Where each ends, counted from where its batch begins.
    ends: Vec<u32>,
    /// What the store holds at first.
    pub store: Vec<u8>,
}

/// What a row's datagrams are.
enum Kind {
    Mixed,
    Acknowledgements,
    Data(u64, u64),
    Blocks(u64, u64),
    Nothing,
}

pub const NAMES: [&str; 7] = [
    "read",
    "acknowledge",
    "receive, acknowledgements",
    "receive, data of 0 to 64 bytes",
    "receive, data of 400 to 600 bytes",
    "send, 0 to 64 bytes",
    "take",
];

impl Row {
    /// The row at a place of the table, with so many calls.
    pub fn made(place: usize, seed: u64, count: usize) -> Row {
        let (work, kind) = match place {
            0 => (Work::Read, Kind::Mixed),
            1 => (Work::Acknowledge, Kind::Acknowledgements),
            2 => (Work::Receive, Kind::Acknowledgements),
            3 => (Work::Receive, Kind::Data(0, 64)),
            4 => (Work::Receive, Kind::Data(400, 600)),
            5 => (Work::Send, Kind::Blocks(0, 64)),
            _ => (Work::Take, Kind::Nothing),
        };
        let mut rule = Rule(seed.wrapping_add(place as u64));
        let starts = (0..STARTS).map(|_| Start::made(&mut rule, work)).collect();
        let store = rule.bytes(STORE_LEN as u64);
        let (batches, bytes, ends) = (Vec::new(), Vec::new(), Vec::new());
        let mut row = Row { name: NAMES[place], work, starts, batches, bytes, ends, store };
        let mut store = row.store.clone();
        for k in 0..count.div_ceil(CALLS) {
            row.add(&mut rule, &kind, k % STARTS, &mut store);
        }
        row
    }

    /// Adds the calls of one start. The plain program goes along, so that each datagram fits the record that it will meet.
    fn add(&mut self, rule: &mut Rule, kind: &Kind, start: usize, store: &mut [u8]) {
        let Start { mut sender, mut receiver, .. } = self.starts[start];
        let from = self.bytes.len();
        let first = self.ends.len();
        for _ in 0..CALLS {
            let part = made_up(rule, kind, &sender, &receiver);
            match self.work {
                Work::Acknowledge => sender.acknowledge::<false>(&part),
                Work::Receive => {
                    endpoint::receive::<false>(&mut sender, &mut receiver, store, &part)
                }
                Work::Read | Work::Send | Work::Take => 0,
            };
            self.bytes.extend(part);
            self.ends.push((self.bytes.len() - from) as u32);
        }
        let (bytes, calls) = (from..self.bytes.len(), first..self.ends.len());
        self.batches.push(Batch { start, bytes, calls });
    }

    /// The parts of a batch.
    pub fn parts(&self, batch: &Batch) -> Parts<'_> {
        Parts { bytes: &self.bytes[batch.bytes.clone()], ends: &self.ends[batch.calls.clone()] }
    }

    pub fn calls(&self) -> usize {
        self.ends.len()
    }
}

fn made_up(rule: &mut Rule, kind: &Kind, s: &Sender, r: &Receiver) -> Vec<u8> {
    let part = match kind {
        Kind::Nothing => return Vec::new(),
        Kind::Blocks(least, most) => {
            // One block in two hundred is too long to send.
            let length = if rule.one_in(200) { 1_224 } else { rule.from(*least, *most) };
            return rule.bytes(length);
        }
        _ if rule.one_in(DUMMIES) => made::dummy(rule),
        Kind::Mixed if rule.one_in(2) => made::data(rule, s, r, 0, 64),
        Kind::Mixed | Kind::Acknowledgements => made::acknowledgement(rule, s, r),
        Kind::Data(least, most) => made::data(rule, s, r, *least, *most),
    };
    if rule.one_in(DAMAGED) {
        made::damaged(rule, part)
    } else {
        part
    }
}

impl Start {
    pub fn new(sender: Sender, receiver: Receiver) -> Start {
        let ours = Both { sender: alike::sender(&sender), receiver: alike::receiver(&receiver) };
        Start { sender, receiver, ours }
    }

    fn made(rule: &mut Rule, work: Work) -> Start {
        let most = if work == Work::Send { 28 } else { 32 };
        let least = if work == Work::Take { rule.from(0, 32) } else { 0 };
        Start::new(made::sender(rule, most), made::receiver(rule, least))
    }

    /// The same with one field changed: mostly no longer consistent. Another LogWindowSize leaves it consistent, and so may
    /// another count of sends.
    pub fn spoilt(&self, rule: &mut Rule) -> Start {
        let Start { sender: mut s, receiver: mut r, .. } = *self;
        let at = rule.below(32) as usize;
        let number = match rule.below(4) {
            0 => rule.next(),
            1 => rule.below(70_000),
            2 => (1 << 32) - 20 + rule.below(40),
            _ => (s.low + rule.below(80)).saturating_sub(40),
        };
        let near = |n: u64, rule: &mut Rule| (n + rule.below(7)).saturating_sub(3);
        match rule.below(27) {
            0 => s.first_data = number,
            1 => s.first_channel = number,
            2 => s.timeout = [0, 299, 60_001, u32::MAX][at % 4],
            3 => s.low = near(s.low, rule),
            4 => s.next = near(s.next, rule),
            5 => s.channel_low = near(s.channel_low, rule),
            6 => s.channel_next = near(s.channel_next, rule),
            7 => (s.low, s.next) = (number, number.saturating_add(rule.below(40))),
            8 => s.numbers[at].state = STATES[rule.below(4) as usize],
            9 => s.numbers[at].channel = near(s.channel_low + rule.below(32), rule),
            10 => s.numbers[at].tick = rule.next() as u32,
            11 => s.numbers[at].channel = number,
            12 => s.blocks[at].state = BLOCKS[rule.below(4) as usize],
            13 => s.blocks[at].len = rule.from(1_222, 1_226) as u16,
            14 => r.first_data = number,
            15 => r.first_channel = number,
            16 => r.base = near(r.base, rule),
            17 => r.end = near(r.end, rule),
            18 => r.due = number,
            19 => (r.base, r.end) = (number, number.saturating_add(rule.below(40))),
            20 => r.marks[at] = !r.marks[at],
            21 => r.holds[at] = Some(rule.from(1_223, 1_227) as u16),
            22 => r.due = (1 << 32) - rule.below(40),
            23 => s.log_window = rule.below(6) as u8,
            24 => s.log_window = rule.next() as u8,
            25 => s.blocks[at].sends = rule.below(9) as u8,
            _ => r.end = number,
        }
        Start::new(s, r)
    }
}

const STATES: [NumberState; 4] =
    [NumberState::Unused, NumberState::Pending, NumberState::Received, NumberState::Lost];
const BLOCKS: [BlockState; 4] =
    [BlockState::Vacant, BlockState::InFlight, BlockState::Waiting, BlockState::Acknowledged];
