//! Which records are consistent, one clause at a time.

use super::*;
use crate::numbers::PAST;
use crate::sender::{BlockState, NumberState};

/// A sender with numbers 10 to 14 pending, received, lost, pending, pending.
fn sender() -> Sender {
    let mut node = Node::open(10, 20, 300);
    for tick in [50, 50, 0, 50, 50] {
        node.send(tick, b"abc").unwrap();
    }
    assert_eq!((node.receive(&vector(11, &[1])), node.sweep(300)), (0, Ok(1)));
    node.s
}

/// A receiver with base 10, numbers 11 and 13 marked, and blocks 22 and 23 held.
fn receiver() -> Receiver {
    let mut node = Node::open(10, 20, 300);
    assert_eq!(node.receive(&data(None, 11, 22, b"abc")), 0);
    assert_eq!(node.receive(&data(None, 13, 23, b"")), 0);
    node.r
}

/// Applies each change to the record and gives the places of those that leave it consistent.
fn survivors<T: Copy>(record: T, is_good: fn(&T) -> bool, changes: &[fn(&mut T)]) -> Vec<usize> {
    let survives = |change: &fn(&mut T)| {
        let mut changed = record;
        change(&mut changed);
        is_good(&changed)
    };
    (0..changes.len()).filter(|i| survives(&changes[*i])).collect()
}

#[test]
fn sender_clauses() {
    let changes: [fn(&mut Sender); 38] = [
        |s| s.numbers[11].channel = 24,
        |s| s.numbers[12].state = NumberState::Received,
        |s| s.blocks[22].state = BlockState::Acknowledged,
        |s| s.blocks[22].len = 1_223,
        |s| s.blocks[22].sends = 6,
        |s| s.timeout = 299,
        |s| s.timeout = 60_001,
        |s| s.first_data = 11,
        |s| s.first_data = 65_536,
        |s| s.first_channel = 21,
        |s| s.first_channel = u64::MAX,
        |s| s.low = 16,
        |s| s.low = u64::MAX,
        |s| s.next = u64::MAX,
        |s| s.next = 43,
        |s| s.next = 16,
        |s| s.low = 11,
        |s| s.channel_low = 26,
        |s| s.channel_next = 26,
        |s| s.channel_next = u64::MAX,
        |s| s.channel_low = 21,
        |s| s.numbers[10].state = NumberState::Received,
        |s| s.numbers[13].state = NumberState::Lost,
        |s| s.numbers[13].state = NumberState::Unused,
        |s| s.numbers[13].channel = 20,
        |s| s.numbers[13].channel = 55,
        |s| s.numbers[11].channel = 19,
        |s| s.numbers[11].channel = 25,
        |s| s.numbers[15].tick = 1,
        |s| s.numbers[15].channel = 1,
        |s| s.blocks[20].state = BlockState::Waiting,
        |s| s.blocks[22].state = BlockState::InFlight,
        |s| s.blocks[22].len = 1_224,
        |s| s.blocks[25].len = 1,
        |s| s.blocks[20].sends = 0,
        |s| s.blocks[21].sends = 7,
        |s| s.blocks[22].sends = 0,
        |s| s.blocks[25].sends = 1,
    ];
    assert_eq!(survivors(sender(), Sender::is_consistent, &changes), [0, 1, 2, 3, 4]);
}

#[test]
fn receiver_clauses() {
    let changes: [fn(&mut Receiver); 24] = [
        |r| r.holds[0] = Some(1_225),
        |r| r.marks[11] = false,
        |r| r.due = PAST - 32,
        |r| (r.end, r.marks) = (10, [false; 32]),
        |r| (r.base, r.end, r.marks) = (PAST, 17, [false; 32]),
        |r| r.due = PAST - 10,
        |r| r.first_data = 11,
        |r| r.first_data = 65_536,
        |r| r.first_channel = 21,
        |r| r.first_channel = u64::MAX,
        |r| r.base = 9,
        |r| r.base = 11,
        |r| r.base = u64::MAX,
        |r| r.end = 9,
        |r| r.end = 12,
        |r| r.end = 15,
        |r| r.end = 43,
        |r| r.end = u64::MAX,
        |r| r.due = PAST + 1,
        |r| r.due = PAST - 9,
        |r| r.marks[10] = true,
        |r| r.marks[14] = true,
        |r| r.marks[13] = false,
        |r| r.holds[0] = Some(1_226),
    ];
    assert_eq!(survivors(receiver(), Receiver::is_consistent, &changes), [0, 1, 2, 3, 4, 5]);
}
