//! The papers' worked examples.

use super::*;
use crate::numbers::{age, widen};
use crate::vector;
use crate::wire::{read, Ack, Body, Packet, Reading, Vector};

#[test]
fn p1_framing() {
    let mut d = *b"\x00\x30\x35\x56\x78\xa2\x36\x73\xee\x68\xf2";
    wire::exchange(0x10, &mut d);
    assert_eq!(d, *b"\x73\x30\x35\x56\x78\xa2\x36\x10\xee\x68\xf2");
    assert_eq!(read(&d), Ok(Reading::Dummy));
}

#[test]
fn p2_ack_of_acks_alone() {
    let values = Values { flags: AOA, log_window: 5, aoa: 10, ..Values::default() };
    let d = written(&values, b"", b"", b"");
    assert_eq!(d, *b"\x00\x10\x50\x0a\x00\x00\x00\x80");
    let packet = Packet { flags: AOA, log_window: 5, aoa: Some(10), ..Packet::default() };
    assert_eq!(read(&d), Ok(Reading::Packet(packet)));
}

fn received(base: u64, coded: &[u8]) -> Vec<u64> {
    let states = vector::states(coded.iter().copied());
    (base..).zip(states).filter(|s| s.1).map(|s| s.0).collect()
}

#[test]
fn p3_p4_vector_bytes() {
    assert_eq!(received(1000, &[0x64]), [1002, 1005, 1006]);
    assert_eq!(received(1000, &[0xe4]), Vec::from_iter(1000..=1035));
    assert_eq!(received(7, &[0xc0, 0x80, 0x01]), [7]);
}

#[test]
fn p5_p6_p7_vectors_written() {
    let cases: [(_, &[u8]); 3] =
        [(17..=17, b"\x00\x01"), (18..=18, b"\x88\x01"), (11..=40, b"\x7e\xd8")];
    for (numbers, coded) in cases {
        let mut node = Node::open(10, 0, 300);
        for n in numbers.clone() {
            assert_eq!(node.receive(&data(None, n, 0, b"")), 0);
        }
        let d = node.acknowledgement(0).unwrap();
        assert_eq!(received(10, coded), Vec::from_iter(numbers));
        assert_eq!(wire::bytes(&d, 6, 2).collect::<Vec<_>>(), coded);
        let vector = Some(Vector { base: 10, size: 2, stamp: None, at: 6 });
        let packet = Packet { flags: ACKVEC, log_window: 5, vector, ..Packet::default() };
        assert_eq!(read(&d), Ok(Reading::Packet(packet)));
    }
    let states = [vec![true; 70], vec![false; 8]].concat();
    assert_eq!(vector::bytes(&states).collect::<Vec<_>>(), [0xff, 0x7f, 0x88]);
}

#[test]
fn p8_to_p11_widening() {
    assert_eq!(widen(70_000, 37_232), None);
    assert_eq!(widen(70_000, 37_233), Some(37_233));
    assert_eq!(widen(70_000, 37_231), Some(102_767));
    assert_eq!(widen(5, 65_535), Some(-1));
    assert_eq!(widen(5, 32_773), None);
    let mut node = Node::open(5, 5, 300);
    assert_eq!(node.receive(&data(None, 65_535, 5, b"")), 7);
    assert_eq!(node.receive(&data(None, 5, 65_535, b"")), 7);
    assert_eq!(node.receive(&data(Some(65_535), 5, 5, b"")), 7);
}

#[test]
fn p12_age_across_the_wrap() {
    assert_eq!(age(294, 4_294_967_290), 300);
    assert_eq!(age(0x8000_0000, 1), 0x7fff_ffff);
    assert_eq!(age(0x8000_0001, 1), 0);
    let mut node = Node::open(0, 0, 300);
    node.send(4_294_967_290, b"x").unwrap();
    assert_eq!(node.sweep(293), Ok(0));
    assert_eq!(node.sweep(294), Ok(1));
    assert_eq!(node.sweep(294), Ok(0));
    assert_eq!((node.s.low, node.s.channel_low), (1, 0));
}

#[test]
fn the_listings_datagram() {
    let d = b"\x41\x04\x50\xe8\x03\x07\x00\x00\x42";
    let body = Some(Body { channel: 7, at: 7, len: 2 });
    let packet =
        Packet { flags: DATA, log_window: 5, number: Some(1000), body, ..Packet::default() };
    assert_eq!(read(d), Ok(Reading::Packet(packet)));
    let mut block = [0; 2];
    wire::copy(d, 7, &mut block);
    assert_eq!(block, *b"AB");
}

#[test]
fn the_long_datagram_of_document_000() {
    let mut d = *b"\x8d\x18\xc0\x57\x13\x0c\x16\x00\x04\x22\x29\x84\x40\x27\x54\x33\x54\x79\x56\
        \x01\x02\x03\x04\x05\x06\x07\x08\x09\x0a";
    assert_eq!(read(&d), Err(6));
    d[1] = 0x55;
    let packet = Packet {
        flags: 0x055,
        log_window: 12,
        ack: Some(Ack { number: 0x1357, time: 0x8d_160c, gap: 4, count: 2, scale: 2, at: 10 }),
        overhead: Some(0x40),
        aoa: Some(0x5427),
        number: Some(0x5433),
        body: Some(Body { channel: 0x5679, at: 19, len: 10 }),
        ..Packet::default()
    };
    assert_eq!(read(&d), Ok(Reading::Packet(packet)));
}
