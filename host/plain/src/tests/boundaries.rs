//! Both sides of each line: lengths, numbers, windows, and which refusal comes first.

use super::*;
use crate::numbers::PAST;
use crate::sender::BlockState;
use crate::wire::{read, Reading};

#[test]
fn reading_refuses_in_order() {
    let full = data(None, 0, 0, &[7; 1_225]);
    assert_eq!((full.len(), read(&full).is_ok()), (1_232, true));
    assert_eq!(read(&[full, vec![0]].concat()), Err(1));
    assert_eq!(read(&[0; 7]), Err(1));
    assert_eq!(read(&[]), Err(1));
    let answer = |prefix, flags, tail: &[u8]| {
        let d = [&[0, flags, 0, 0, 0, 0, 0, prefix], tail].concat();
        read(&d).err().unwrap_or(0)
    };
    assert_eq!(answer(0x01, 0xff, b""), 2);
    assert_eq!(answer(0x11, 0, b""), 2);
    assert_eq!(answer(0x02, 0xff, b""), 2);
    assert_eq!(answer(0xf0, 0xff, b""), 0, "a dummy is not read further");
    assert_eq!(answer(0x20, 0xff, b""), 3);
    assert_eq!(answer(0x40, 0x2d, b""), 4);
    assert_eq!(answer(0x40, 0x0d, b""), 5);
    assert_eq!(answer(0x40, 0x05, b""), 3);
    assert_eq!(answer(0x40, 0, b""), 0);
    assert_eq!(answer(0, 0x01, b"\0"), 3);
    assert_eq!(answer(0, 0x01, b"\0\0"), 0);
    assert_eq!(answer(0, 0x01, b"\0\x01"), 3);
    assert_eq!(answer(0, 0x01, b"\0\0\0"), 6);
    assert_eq!(answer(0, 0x08, b""), 6);
    assert_eq!(answer(0xa0, 0x08, b""), 0);
    assert_eq!(answer(0xa0, 0x01, b"\0\0\xee\xff"), 0, "the tail is dropped");
    assert_eq!(answer(0xe0, 0x01, b"\0\0"), 0);
}

/// Writes default values with these flags and one change into so much room.
fn write(flags: u16, change: fn(&mut Values), bytes: [&[u8]; 3], room: usize) -> Result<usize, u8> {
    let mut values = Values { flags, ..Values::default() };
    change(&mut values);
    let mut out = [UNTOUCHED; 1_232];
    let result = wire::write(&values, bytes[0], bytes[1], bytes[2], &mut out[..room]);
    assert!(out[result.unwrap_or(0)..].iter().all(|b| *b == UNTOUCHED));
    result
}

const NONE: [&[u8]; 3] = [&[]; 3];

#[test]
fn writing_refuses_in_order() {
    assert_eq!(write(0x100d, |v| v.log_window = 16, NONE, 0), Err(4));
    assert_eq!(write(0x15d, |v| v.log_window = 16, NONE, 0), Err(5));
    assert_eq!(write(0, |v| v.log_window = 16, NONE, 0), Err(10));
    assert_eq!(write(0, |_| {}, [b"x"; 3], 7), Err(14));
    assert_eq!(write(0, |_| {}, [b"x"; 3], 8), Ok(8));
    assert_eq!(write(0x155, |_| {}, NONE, 19), Err(14));
    assert_eq!(write(0x155, |_| {}, NONE, 20), Ok(20));
    assert_eq!(write(0x155, |_| {}, [b"", b"", &[0; 1_212]], 1_232), Ok(1_232));
    assert_eq!(write(0x155, |_| {}, [b"", b"", &[0; 1_213]], 0), Err(10));
}

#[test]
fn widths_of_written_values() {
    let wide: [fn(&mut Values); 11] = [
        |v| v.ack_number = 1 << 16,
        |v| v.ack_time = 1 << 24,
        |v| v.ack_gap = 1 << 8,
        |v| v.ack_count = 1,
        |v| v.ack_scale = 1 << 4,
        |v| v.overhead = 1 << 8,
        |v| v.delay_most = 1 << 8,
        |v| v.delay_timeout = 1 << 16,
        |v| v.aoa = 1 << 16,
        |v| v.number = 1 << 16,
        |v| v.channel = 1 << 16,
    ];
    for change in wide {
        assert_eq!(write(0x155, change, NONE, 0), Err(10));
        assert_eq!(write(0, change, NONE, 8), Ok(8));
    }
    assert_eq!(write(1, |v| v.ack_count = 15, [&[0; 15], b"", b""], 99), Ok(25));
    assert_eq!(write(1, |v| v.ack_count = 16, [&[0; 16], b"", b""], 99), Err(10));
    assert_eq!(write(8, |v| v.vector_size = 127, [b"", &[0; 127], b""], 999), Ok(133));
    assert_eq!(write(8, |v| v.vector_size = 128, [b"", &[0; 128], b""], 999), Err(10));
    assert_eq!(write(8, |v| v.vector_base = 1 << 16, NONE, 8), Err(10));
    assert_eq!(write(8, |v| v.vector_time = 1 << 24, NONE, 8), Ok(8));
    assert_eq!(write(8, |v| (v.vector_stamped, v.vector_time) = (1, 1 << 24), NONE, 99), Err(10));
    assert_eq!(write(8, |v| (v.vector_stamped, v.vector_gap) = (1, 1 << 8), NONE, 99), Err(10));
    assert_eq!(write(8, |v| (v.vector_stamped, v.vector_gap) = (1, 255), NONE, 10), Ok(10));
    assert_eq!(write(8, |v| v.vector_stamped = 2, NONE, 99), Err(10));
}

#[test]
fn opening() {
    assert!(endpoint::open(65_535, 65_535, 300).is_ok() && endpoint::open(0, 0, 60_000).is_ok());
    for (d, c, timeout) in [(65_536, 0, 300), (0, 65_536, 300), (0, 0, 299), (0, 0, 60_001)] {
        assert_eq!(endpoint::open(d, c, timeout), Err(15));
    }
}

#[test]
fn blocks_and_output() {
    let mut node = Node::open(0, 0, 300);
    assert_eq!(node.send(0, &[1; 1_224]), Err(10));
    let d = node.send(0, &[1; 1_223]).unwrap();
    assert_eq!(d.len(), 1_232);
    node.out.truncate(8);
    assert_eq!(node.send(0, b""), Err(14));
    node.out.push(UNTOUCHED);
    assert_eq!(node.send(0, b"").unwrap(), *b"\x01\x14\x50\x00\x00\x01\x00\x00\x00");
    node.sent.push(0);
    assert_eq!((node.send(0, &[1; 1_224]), node.resend(0)), (Err(13), Err(13)));

    let mut peer = Node::open(0, 0, 300);
    assert_eq!(peer.receive(&data(None, 0, 1, b"")), 0);
    assert_eq!(peer.take(), Err(11));
    assert_eq!(peer.receive(&d), 0);
    peer.out.truncate(1_222);
    assert_eq!(peer.take(), Err(14));
    peer.out.push(UNTOUCHED);
    assert_eq!(peer.take().unwrap(), [1; 1_223]);
    peer.out.clear();
    assert_eq!(peer.take().unwrap(), []);
    peer.held.pop();
    assert_eq!((peer.take(), peer.receive(b"")), (Err(13), 13));
}

#[test]
fn numbers_in_the_window() {
    let mut node = Node::open(100, 50, 300);
    assert_eq!(node.receive(&data(None, 132, 50, b"")), 7);
    assert_eq!(node.receive(&data(None, 131, 82, b"")), 7);
    assert_eq!(node.receive(&data(None, 131, 81, b"")), 0);
    assert_eq!(node.receive(&data(None, 99, 50, b"")), 7);
    assert_eq!(node.receive(&data(None, 100, 49, b"")), 7);
    assert_eq!(node.receive(&data(Some(99), 100, 50, b"")), 7);
    assert_eq!(node.receive(&data(Some(140), 172, 50, b"")), 7);
    assert_eq!(node.receive(&data(Some(140), 171, 50, b"late")), 0);
    assert_eq!((node.r.base, node.r.end), (140, 172));
    assert_eq!(node.receive(&data(Some(120), 139, 51, b"first")), 0);
    assert_eq!(node.receive(&data(Some(120), 139, 51, b"second")), 0);
    assert_eq!(node.take().unwrap(), b"late");
    assert_eq!(node.take().unwrap(), b"first");
    assert_eq!(node.take(), Err(11));
}

#[test]
fn waiving() {
    let five = b"\x00\x04\x50\x05\x00\x00\x00\xc0";
    let waive = b"\x01\x14\x50\x20\x00\x00\x00\x00\x00";
    for order in [[&five[..], waive], [&waive[..], five]] {
        let mut node = Node::open(0, 0, 300);
        assert_eq!(node.acknowledgement(0), Err(11));
        assert_eq!(order.map(|d| node.receive(d)), [0, 0]);
        assert_eq!((node.r.base, node.r.end), (32, 6));
        let d = node.acknowledgement(0xab12_3456).unwrap();
        assert_eq!(d, *b"\x12\x01\x50\x1f\x00\x56\x34\x00\x09\x00");
        node.out.truncate(9);
        assert_eq!(node.acknowledgement(0), Err(14));
    }
    let mut node = Node::open(0, 0, 300);
    assert_eq!([2, 3, 7].map(|n| node.receive(&data(None, n, n, b""))), [0; 3]);
    assert_eq!(node.receive(b"\x00\x10\x50\x02\x00\x00\x00\x80"), 0);
    assert_eq!((node.r.base, node.r.end), (4, 8), "base passes marked places");
}

#[test]
fn ends_of_the_full_range() {
    let mut node = Node::open(0, 0, 300);
    (node.r.base, node.r.end, node.r.due) = (PAST - 2, PAST - 2, PAST - 1);
    assert_eq!(node.receive(&data(None, PAST, PAST - 1, b"")), 7);
    assert_eq!(node.receive(&data(None, PAST - 1, PAST, b"")), 7);
    assert_eq!(node.receive(&data(Some(PAST), PAST - 1, PAST - 1, b"")), 7);
    assert_eq!(node.receive(&data(Some(PAST - 1), PAST - 1, PAST - 1, b"z")), 0);
    assert_eq!((node.r.base, node.r.end), (PAST, PAST));
    assert_eq!((node.take().unwrap(), node.take()), (b"z".to_vec(), Err(11)));
    assert!(node.acknowledgement(0).is_ok());

    (node.s.low, node.s.next) = (PAST - 1, PAST - 1);
    node.send(0, b"x").unwrap();
    assert_eq!((node.send(0, b"x"), node.resend(0)), (Err(12), Err(11)));
    assert_eq!(node.receive(&ack(PAST)), 8);
    assert_eq!((node.sweep(300), node.resend(0)), (Ok(1), Err(12)));
    let mut node = Node::open(0, 0, 300);
    (node.s.channel_low, node.s.channel_next) = (PAST - 1, PAST - 1);
    node.send(0, b"x").unwrap();
    assert_eq!((node.send(0, &[0; 1_224]), node.send(0, b"x")), (Err(10), Err(12)));
    assert_eq!(node.sweep(300), Ok(1));
    assert!(node.resend(0).is_ok(), "only data numbers count");
}

#[test]
fn full_windows() {
    let mut node = Node::open(0, 0, 300);
    for n in 0..32 {
        node.send(if n == 31 { 0 } else { 900 }, b"").unwrap();
    }
    assert_eq!((node.send(0, b""), node.resend(0)), (Err(9), Err(11)));
    assert_eq!((node.sweep(300), node.resend(0)), (Ok(1), Err(9)));
    assert_eq!(node.receive(&vector(0, &[0x02])), 0);
    assert_eq!(node.send(0, b""), Err(9), "the lows have not moved");
    assert_eq!(node.sweep(1_200), Ok(30));
    assert_eq!((node.s.low, node.s.channel_low), (32, 0));
    assert_eq!(node.send(0, b""), Err(9), "the blocks still fill their range");
    assert_eq!(node.resend(5).unwrap(), *b"\x00\x14\x50\x20\x00\x20\x00\x00\x00");
    assert_eq!(node.receive(&ack(32)), 0);
    assert_eq!(node.s.channel_low, 2);
    assert!(node.send(0, b"").is_ok());
}

/// A packet without a flag that gives this LogWindowSize.
fn window(log_window: u32) -> Vec<u8> {
    written(&Values { log_window, ..Values::default() }, b"", b"", b"")
}

#[test]
fn the_window_of_the_peer() {
    for (log_window, takes) in [(0, 1), (3, 8), (4, 16), (5, 32), (15, 32)] {
        let mut node = Node::open(0, 0, 300);
        assert_eq!(node.receive(&window(log_window)), 0);
        for _ in 0..takes {
            assert!(node.send(0, b"").is_ok());
        }
        assert_eq!(node.send(0, b""), Err(9));
    }
}

#[test]
fn a_window_that_shrinks() {
    let mut node = Node::open(0, 0, 300);
    for tick in 0..20 {
        node.send(tick, b"").unwrap();
    }
    assert_eq!(node.receive(&window(3)), 0);
    assert_eq!(node.send(0, b""), Err(9));
    assert_eq!((node.receive(&vector(0, &[0x80 | 0x40 | 12])), node.s.low), (0, 12));
    assert_eq!(node.s.log_window, 5, "the vector gives 5");
    assert_eq!(node.receive(&window(3)), 0);
    assert_eq!(node.send(0, b""), Err(9), "eight are out");
    assert_eq!(node.sweep(312), Ok(1));
    assert!(node.resend(400).is_ok(), "seven were out");
    assert_eq!(node.sweep(314), Ok(2));
    assert!(node.resend(400).is_ok() && node.resend(400).is_ok());
    assert_eq!((node.sweep(700), node.s.next - node.s.low), (Ok(8), 0));
}

#[test]
fn what_is_refused_gives_no_window() {
    let mut node = Node::open(0, 0, 300);
    let never_sent = Values { flags: ACK, ack_number: 7, log_window: 1, ..Values::default() };
    assert_eq!(node.receive(&written(&never_sent, b"", b"", b"")), 8);
    let far = Values { flags: DATA, number: 32, log_window: 1, ..Values::default() };
    assert_eq!(node.receive(&written(&far, b"", b"", b"")), 7);
    let dummy = [0, 0, 0x10, 0, 0, 0, 0, 0x10];
    assert_eq!((node.receive(&dummy), node.s.log_window), (0, 5));
}

/// Loses whatever is out at each tick and sends the lowest waiting block again, so many times.
fn resend_all(node: &mut Node, times: u32) {
    for turn in 1..=times {
        assert!(node.sweep(300 * turn).is_ok());
        assert!(node.resend(300 * turn).is_ok());
    }
}

#[test]
fn the_sixth_send_is_the_last() {
    let mut node = Node::open(0, 0, 300);
    assert!(node.send(0, b"a").is_ok());
    resend_all(&mut node, 5);
    assert_eq!((node.s.blocks[0].sends, node.resend(1_500)), (6, Err(11)));
    let before = node.s;
    assert_eq!(node.receive(&ack(4)), 0);
    assert_eq!(node.s, before, "the fifth send is lost");
    assert_eq!((node.receive(&ack(5)), node.s.channel_low), (0, 1));
    assert_eq!(node.s.blocks[0].sends, 0);
}

#[test]
fn one_at_its_limit_holds_up_those_behind() {
    let mut node = Node::open(0, 0, 300);
    assert!(node.send(0, b"a").is_ok() && node.send(0, b"b").is_ok());
    resend_all(&mut node, 5);
    assert_eq!(node.sweep(1_800), Ok(1));
    assert_eq!((node.resend(1_800), node.s.blocks[1].state), (Err(22), BlockState::Waiting));
    assert!(node.send(1_800, b"c").is_ok());
    assert_eq!((node.receive(&window(0)), node.send(1_800, b"d")), (0, Err(9)));
    assert_eq!(node.resend(1_800), Err(22), "22 comes before 9");
    (node.s.low, node.s.next) = (PAST - 1, PAST);
    node.s.numbers.swap(7, 31);
    assert_eq!(node.resend(1_800), Err(22), "22 comes before 12");
}

#[test]
fn losses_by_numbers_received_above() {
    let mut node = Node::open(0, 0, 300);
    for _ in 0..6 {
        node.send(0, b"").unwrap();
    }
    assert_eq!((node.receive(&vector(2, &[0x03])), node.sweep(0)), (0, Ok(0)));
    assert_eq!((node.receive(&vector(4, &[0x01])), node.sweep(0)), (0, Ok(2)));
    assert_eq!((node.s.low, node.s.channel_low), (5, 0));
    assert_eq!(node.receive(&ack(4)), 0);
    assert_eq!(node.s.blocks[0].state, BlockState::Waiting, "lost stays lost");
}

#[test]
fn acknowledgements_out_of_place() {
    let mut node = Node::open(3, 0, 300);
    assert_eq!(node.receive(&ack(3)), 8);
    for _ in 0..4 {
        node.send(0, b"").unwrap();
    }
    assert_eq!([2, 7].map(|n| node.receive(&ack(n))), [8, 8]);
    assert_eq!(node.receive(&vector(2, &[0x02])), 8);
    assert_eq!(node.receive(&vector(6, &[0x03])), 8);
    assert_eq!(node.receive(&vector(3, &[0x0f, 0xc1])), 8);
    assert_eq!(node.receive(&vector(9, &[0x00, 0xbf, 0xc0])), 0);
    assert_eq!(node.receive(&vector(9, &[])), 0);
    assert_eq!(node.receive(&vector(6, &[0x01])), 0);
    assert_eq!((node.s.low, node.receive(&ack(4))), (3, 0));
    assert_eq!((node.s.low, node.s.channel_low), (5, 2));
    assert_eq!(node.receive(&ack(3)), 0, "below low nothing changes");
    let both =
        |ack_number| Values { flags: DATA | ACK, ack_number, number: 999, ..Values::default() };
    assert_eq!([7, 6].map(|n| node.receive(&written(&both(n), b"", b"", b""))), [8, 7]);
    assert!(matches!(read(&written(&both(7), b"", b"", b"")), Ok(Reading::Packet(_))));
}
