//! The tests' tools: an endpoint that watches each of its calls, and a small random rule.

mod boundaries;
mod examples;
mod exchange;
mod noise;
mod records;

use crate::endpoint;
use crate::receiver::Receiver;
use crate::sender::Sender;
use crate::store::STORE_LEN;
use crate::wire::{self, Values, ACK, ACKVEC, AOA, DATA};

const UNTOUCHED: u8 = 0xa5;

/// Both halves, their stores and an output buffer.
#[derive(Clone, PartialEq)]
struct Node {
    s: Sender,
    r: Receiver,
    sent: Vec<u8>,
    held: Vec<u8>,
    out: Vec<u8>,
}

impl Node {
    fn open(first_data: u32, first_channel: u32, timeout: u32) -> Node {
        let (s, r) = endpoint::open(first_data, first_channel, timeout).unwrap();
        let store = vec![UNTOUCHED; STORE_LEN];
        Node { s, r, sent: store.clone(), held: store, out: vec![UNTOUCHED; 1_300] }
    }

    /// Makes a call: a refusal must leave everything, an acceptance a consistent record.
    fn watch<T>(&mut self, call: impl FnOnce(&mut Node) -> Result<T, u8>) -> Result<T, u8> {
        let before = self.clone();
        let result = call(self);
        match result {
            Ok(_) => assert!(self.s.is_consistent() && self.r.is_consistent()),
            Err(_) => assert!(*self == before, "a refusal changed something"),
        }
        result
    }

    /// Makes a call that writes, and gives the bytes it reports; the rest must be untouched.
    fn written(
        &mut self,
        call: fn(&mut Node, u32, &[u8]) -> Result<usize, u8>,
        tick: u32,
        block: &[u8],
    ) -> Result<Vec<u8>, u8> {
        self.out.fill(UNTOUCHED);
        let len = self.watch(|n| call(n, tick, block))?;
        assert!(self.out[len..].iter().all(|b| *b == UNTOUCHED));
        Ok(self.out[..len].to_vec())
    }

    /// Receives, and compares the answer with what the halves do alone.
    fn receive(&mut self, d: &[u8]) -> u8 {
        let mut alone = self.clone();
        let result =
            self.watch(|n| match endpoint::receive::<true>(&mut n.s, &mut n.r, &mut n.held, d) {
                0 => Ok(()),
                number => Err(number),
            });
        let answer = result.err().unwrap_or(0);
        let halves = [alone.s.acknowledge::<true>(d), alone.r.receive::<true>(&mut alone.held, d)];
        match halves {
            [_, 13] => assert_eq!(answer, 13),
            [0, second] => assert_eq!(answer, second),
            [first, _] => assert_eq!(answer, first),
        }
        assert!(answer != 0 || alone == *self);
        answer
    }

    fn send(&mut self, tick: u32, block: &[u8]) -> Result<Vec<u8>, u8> {
        self.written(|n, t, b| n.s.send::<true>(&mut n.sent, t, b, &mut n.out), tick, block)
    }

    fn resend(&mut self, tick: u32) -> Result<Vec<u8>, u8> {
        self.written(|n, t, _| n.s.resend::<true>(&n.sent, t, &mut n.out), tick, b"")
    }

    fn sweep(&mut self, tick: u32) -> Result<u32, u8> {
        self.watch(|n| n.s.sweep::<true>(tick))
    }

    fn take(&mut self) -> Result<Vec<u8>, u8> {
        self.written(|n, _, _| n.r.take::<true>(&n.held, &mut n.out), 0, b"")
    }

    fn acknowledgement(&mut self, stamp: u32) -> Result<Vec<u8>, u8> {
        self.written(|n, t, _| n.r.write_acknowledgement::<true>(t, 9, &mut n.out), stamp, b"")
    }
}

/// Writes a datagram from values.
fn written(values: &Values, additions: &[u8], coded: &[u8], block: &[u8]) -> Vec<u8> {
    let mut out = vec![0; 1_232];
    let len = wire::write(values, additions, coded, block, &mut out).unwrap();
    out.truncate(len);
    out
}

/// No values but LogWindowSize 5.
fn plain_values() -> Values {
    Values { log_window: wire::LOG_WINDOW, ..Values::default() }
}

/// Writes a data packet, from full numbers, with or without AckOfAcks.
fn data(aoa: Option<u64>, number: u64, channel: u64, block: &[u8]) -> Vec<u8> {
    let mut values =
        Values { flags: DATA, number: low(number), channel: low(channel), ..plain_values() };
    if let Some(number) = aoa {
        (values.flags, values.aoa) = (DATA | AOA, low(number));
    }
    written(&values, b"", b"", block)
}

fn ack(number: u64) -> Vec<u8> {
    let values = Values { flags: ACK, ack_number: low(number), ..plain_values() };
    written(&values, b"", b"", b"")
}

fn vector(base: u64, coded: &[u8]) -> Vec<u8> {
    let (vector_base, vector_size) = (low(base), coded.len() as u32);
    let values = Values { flags: ACKVEC, vector_base, vector_size, ..plain_values() };
    written(&values, b"", coded, b"")
}

/// Gives the 16 bits of a number that a field carries.
fn low(number: u64) -> u32 {
    u32::from(number as u16)
}

/// A fixed pseudo-random rule.
struct Rule(u64);

impl Rule {
    fn below(&mut self, bound: u64) -> u64 {
        self.0 ^= self.0 << 13;
        self.0 ^= self.0 >> 7;
        self.0 ^= self.0 << 17;
        (self.0 >> 11) % bound
    }

    fn bytes(&mut self, len: u32) -> Vec<u8> {
        (0..len).map(|_| self.below(256) as u8).collect()
    }
}
