//! Made-up records, datagrams and blocks. Records come from made-up histories, and are then moved to anywhere in the full range.

use crate::rule::Rule;
use plain::numbers::{PAST, WINDOW};
use plain::receiver::Receiver;
use plain::sender::{NumberState, Sender};
use plain::store::STORE_LEN;
use plain::vector;
use plain::wire::{
    self, Values, ACK, ACKVEC, AOA, DATA, DATAGRAM_MOST, DELAYACKINFO, OVERHEADSIZE,
};

/// A sender with at most so many numbers in range, pending, received or lost.
pub fn sender(rule: &mut Rule, most: u64) -> Sender {
    let mut s = Sender::open(rule.next() as u16, rule.next() as u16, rule.from(300, 60_000) as u32);
    let mut store = vec![0; STORE_LEN];
    let mut out = [0; DATAGRAM_MOST];
    let mut tick = rule.next() as u32;
    let (range, turns) = (rule.from(0, most), rule.from(20, 80));
    for turn in 0..turns + 100 {
        let now = s.next - s.low;
        if now == range && turn >= turns {
            break;
        }
        // Of a refusal (a window is full, nothing waits, a block was sent six times) nothing is made.
        if now < range && !rule.one_in(4) {
            if rule.one_in(3) && s.resend::<false>(&store, tick, &mut out).is_ok() {
                continue;
            }
            let length = rule.below(40);
            let _ = s.send::<false>(&mut store, tick, &rule.bytes(length), &mut out);
        } else if rule.one_in(8) {
            let _ = s.sweep::<false>(tick);
        } else if now > 0 {
            let n = s.low + rule.below(now);
            let values = Values { vector_size: 1, log_window: 5, ..naming(ACKVEC, n) };
            s.acknowledge::<false>(&written(&values, &[], &[1], &[]));
        }
        tick = tick.wrapping_add(rule.below(s.timeout as u64 / 8) as u32);
    }
    let (by, channels) = (laps(rule, s.next), laps(rule, s.channel_next));
    s.low += by;
    s.next += by;
    s.channel_low += channels;
    s.channel_next += channels;
    for n in s.numbers.iter_mut().filter(|n| n.state != NumberState::Unused) {
        n.channel += channels;
    }
    s
}

/// A receiver that holds some blocks, with at least so many from the one due on.
pub fn receiver(rule: &mut Rule, least: u64) -> Receiver {
    let mut r = Receiver::open(rule.next() as u16, rule.next() as u16);
    let mut store = vec![0; STORE_LEN];
    let mut out = [0; DATAGRAM_MOST];
    for _ in 0..rule.from(0, 60) {
        let mut values = arriving(rule, &r, 6, 12);
        values.flags |= AOA;
        let length = rule.below(65);
        r.receive::<false>(&mut store, &written(&values, &[], &[], &rule.bytes(length)));
        while !rule.one_in(4) && r.take::<false>(&store, &mut out).is_ok() {}
    }
    for i in 0..least {
        let mut values = arriving(rule, &r, 6, 1);
        values.channel = field(r.due + i);
        let length = rule.below(65);
        r.receive::<false>(&mut store, &written(&values, &[], &[], &rule.bytes(length)));
    }
    let (by, channels) = (laps(rule, r.end.max(r.base)), laps(rule, r.due + WINDOW));
    r.base += by;
    r.end += by;
    r.due += channels;
    r
}

/// How far numbers move whose highest is this one: by whole windows, so that each keeps its place.
fn laps(rule: &mut Rule, highest: u64) -> u64 {
    let room = (PAST - highest) / WINDOW;
    WINDOW
        * match rule.below(8) {
            0 => 0,
            1 => room,
            2..=4 => rule.below(4_096),
            _ => rule.below(room),
        }
}

/// An acknowledgement: mostly of numbers in range, now and then of one that was never sent.
pub fn acknowledgement(rule: &mut Rule, s: &Sender, r: &Receiver) -> Vec<u8> {
    let (values, additions, coded) = naming_some(rule, s);
    written(&besides(rule, values, r), &additions, &coded, &[])
}

/// Data of so many bytes: mostly numbers that the receiver waits for, one in eight with an acknowledgement.
pub fn data(rule: &mut Rule, s: &Sender, r: &Receiver, least: u64, most: u64) -> Vec<u8> {
    let mut values = arriving(rule, r, 6, 8);
    let (mut additions, mut coded) = (Vec::new(), Vec::new());
    if rule.one_in(8) {
        let (named, a, c) = naming_some(rule, s);
        (additions, coded) = (a, c);
        values = Values {
            flags: named.flags | DATA,
            number: values.number,
            channel: values.channel,
            log_window: values.log_window,
            ..named
        };
    }
    if !rule.one_in(4) {
        values.flags |= AOA;
        values.aoa = field(if rule.one_in(6) {
            r.base + rule.below(4)
        } else {
            r.base.saturating_sub(rule.below(20))
        });
    }
    let length = rule.from(least, most);
    written(&besides(rule, values, r), &additions, &coded, &rule.bytes(length))
}

/// A datagram of type 8.
pub fn dummy(rule: &mut Rule) -> Vec<u8> {
    let length = rule.from(8, 60);
    let mut d = rule.bytes(length);
    d[7] = 16 | (d[7] & 0xe0);
    d
}

/// Damage of one of five kinds.
pub fn damaged(rule: &mut Rule, mut d: Vec<u8>) -> Vec<u8> {
    match rule.below(5) {
        0 => d.truncate(rule.below(d.len() as u64 + 1) as usize),
        1 => {
            for _ in 0..rule.from(1, 4) {
                let at = rule.below(d.len() as u64) as usize;
                d[at] ^= 1 << rule.below(8);
            }
        }
        2 => {
            for _ in 0..rule.from(1, 4) {
                let at = rule.below(d.len() as u64) as usize;
                d[at] = rule.next() as u8;
            }
        }
        3 => {
            let more = if rule.one_in(8) { rule.from(1_100, 1_240) } else { rule.from(1, 20) };
            let at = rule.below(d.len() as u64 + 1) as usize;
            d.splice(at..at, rule.bytes(more));
        }
        _ => {
            let length = rule.below(64);
            d = rule.bytes(length);
        }
    }
    d
}

/// Values that name some numbers of a sender, with the additions of an ACK or the bytes of a vector.
fn naming_some(rule: &mut Rule, s: &Sender) -> (Values, Vec<u8>, Vec<u8>) {
    let range = s.next - s.low;
    if rule.one_in(3) {
        let n = match rule.below(16) {
            0 => s.next + rule.below(4),
            1 if rule.one_in(2) => half_away(rule, s.next),
            1 => rule.next(),
            2..=5 => (s.low + rule.below(range + 1)).saturating_sub(1),
            _ => (s.low + rule.below(3.min(range + 1))).saturating_sub(1),
        };
        let count = if rule.one_in(8) { rule.below(16) } else { rule.below(4) };
        let additions = rule.bytes(count);
        let values = Values {
            ack_time: rule.below(1 << 24) as u32,
            ack_gap: rule.below(256) as u32,
            ack_count: count as u32,
            ack_scale: rule.below(16) as u32,
            ..naming(ACK, n)
        };
        return (values, additions, Vec::new());
    }
    let base = match rule.below(32) {
        0 if rule.one_in(2) => half_away(rule, s.next),
        0 => rule.next(),
        1..=8 => s.low.saturating_sub(rule.below(20)),
        _ => s.low,
    };
    let coded = if rule.one_in(6) {
        let length = rule.below(7);
        rule.bytes(length)
    } else {
        let mut states: Vec<bool> = (base.min(s.next)..s.next).map(|_| rule.one_in(6)).collect();
        if rule.one_in(16) {
            states.push(true);
        }
        vector::bytes(&states).take(127).collect()
    };
    let values = Values {
        vector_size: coded.len() as u32,
        vector_stamped: rule.below(2) as u32,
        vector_time: rule.below(1 << 24) as u32,
        vector_gap: rule.below(256) as u32,
        ..naming(ACKVEC, base)
    };
    (values, Vec::new(), coded)
}

/// An ACK for a number, or a vector from a number on, with a LogWindowSize that goes by the number.
fn naming(flags: u16, n: u64) -> Values {
    Values {
        flags,
        log_window: (n % 16) as u32,
        ack_number: field(n),
        vector_base: field(n),
        ..Values::default()
    }
}

/// Data under numbers that a receiver waits for, or not.
fn arriving(rule: &mut Rule, r: &Receiver, numbers: u64, channels: u64) -> Values {
    let number = match rule.below(40) {
        0..=3 => r.base.saturating_sub(rule.below(40)),
        4 if rule.one_in(4) => half_away(rule, r.base),
        4 => r.base + WINDOW + rule.below(4),
        5..=8 => r.base + rule.below(WINDOW),
        _ => r.base + rule.below(numbers),
    };
    let channel = match rule.below(40) {
        0..=3 => r.due.saturating_sub(rule.below(40)),
        4 if rule.one_in(4) => half_away(rule, r.due),
        4 => r.due + WINDOW + rule.below(4),
        5..=8 => r.due + rule.below(WINDOW),
        _ => r.due + rule.below(channels),
    };
    Values {
        flags: DATA,
        log_window: rule.below(16) as u32,
        number: field(number),
        channel: field(channel),
        aoa: field(r.base),
        ..Values::default()
    }
}

/// Payloads that change neither half, each one time in sixteen, and now and then an AckOfAcks.
fn besides(rule: &mut Rule, mut values: Values, r: &Receiver) -> Values {
    if rule.one_in(16) {
        values.flags |= OVERHEADSIZE;
        values.overhead = rule.below(256) as u32;
    }
    if rule.one_in(16) {
        values.flags |= DELAYACKINFO;
        values.delay_most = rule.below(256) as u32;
        values.delay_timeout = rule.below(65_536) as u32;
    }
    if values.flags & AOA == 0 && rule.one_in(16) {
        values.flags |= AOA;
        values.aoa = field(if rule.one_in(16) {
            half_away(rule, r.base)
        } else {
            r.base.saturating_sub(rule.below(8))
        });
    }
    values
}

/// A number half a lap above a reference, or up to two more or less; its field lies as near to half a lap below.
fn half_away(rule: &mut Rule, reference: u64) -> u64 {
    reference + rule.from(32_766, 32_770)
}

/// The 16 bits of a number that stand on the wire.
fn field(n: u64) -> u32 {
    u32::from(n as u16)
}

fn written(values: &Values, additions: &[u8], coded: &[u8], block: &[u8]) -> Vec<u8> {
    let mut out = [0; DATAGRAM_MOST];
    let length = wire::write(values, additions, coded, block, &mut out)
        .expect("made-up values are such as can be written");
    out[..length].to_vec()
}
