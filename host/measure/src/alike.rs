//! The plain program's records and readings, said in the proved endpoint's fields, so that both can be compared.

use crate::ours::{self, Told};
use plain::receiver::Receiver;
use plain::sender::Sender;
use plain::wire::{Packet, Reading};

pub fn sender(s: &Sender) -> ours::Sender {
    ours::Sender {
        firstdata: s.first_data,
        firstchannel: s.first_channel,
        timeout: s.timeout,
        logwindow: s.log_window,
        low: s.low,
        next: s.next,
        channellow: s.channel_low,
        channelnext: s.channel_next,
        numbers: s.numbers.map(|n| ours::NumberPlace {
            channel: n.channel,
            tick: n.tick,
            state: n.state as u8,
        }),
        blocks: s.blocks.map(|b| ours::BlockPlace {
            state: b.state as u8,
            sends: b.sends,
            length: b.len,
        }),
    }
}

pub fn receiver(r: &Receiver) -> ours::Receiver {
    ours::Receiver {
        firstdata: r.first_data,
        firstchannel: r.first_channel,
        base: r.base,
        end: r.end,
        due: r.due,
        marks: r.marks.map(u8::from),
        holds: r
            .holds
            .map(|h| ours::Hold { held: u8::from(h.is_some()), length: h.unwrap_or_default() }),
    }
}

pub fn reading(read: &Result<Reading, u8>) -> Told {
    match read {
        Err(n) => Told { answer: *n, ..Told::default() },
        Ok(Reading::Dummy) => Told { dummy: true, ..Told::default() },
        Ok(Reading::Packet(p)) => Told { packet: packet(p), ..Told::default() },
    }
}

/// What is absent is 0 in the proved packet, and its place too.
fn packet(p: &Packet) -> ours::Packet {
    let mut to = ours::Packet::default();
    to.values.flags = p.flags;
    to.values.logwindow = p.log_window;
    if let Some(a) = p.ack {
        to.values.ack = ours::Ack {
            number: a.number,
            time: a.time,
            gap: a.gap,
            count: a.count,
            scale: a.scale,
        };
        to.additions = a.at;
    }
    to.values.overhead = p.overhead.unwrap_or_default();
    if let Some(d) = p.delay {
        to.values.delay = ours::Delay { most: d.most, timeout: d.timeout };
    }
    to.values.aoa = p.aoa.unwrap_or_default();
    to.values.number = p.number.unwrap_or_default();
    if let Some(v) = p.vector {
        to.values.vector.base = v.base;
        to.values.vector.size = v.size;
        to.vector = v.at;
        if let Some(stamp) = v.stamp {
            to.values.vector.timed = true;
            to.values.vector.time = stamp.time;
            to.values.vector.gap = stamp.gap;
        }
    }
    if let Some(b) = p.body {
        to.values.channel = b.channel;
        to.body = b.at;
        to.bytes = b.len;
    }
    to
}
