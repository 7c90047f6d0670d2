//! Calls on random bytes and random records: nothing panics and the promises of `Node` hold.

use super::*;
use crate::sender::{BlockState, NumberState};
use crate::wire::{read, Reading};

/// Makes values with numbers near the given ones, and bytes that fit them.
fn values(rule: &mut Rule, near: [u64; 3]) -> (Values, [Vec<u8>; 3]) {
    let mut number = |i: usize| low((near[i] + rule.below(60)).saturating_sub(20));
    let (number, channel, acked, aoa) = (number(0), number(1), number(2), number(0));
    let all = [0x001, 0x004, 0x008, 0x010, 0x040, 0x100];
    let flags = all.iter().filter(|_| rule.below(2) == 0).sum::<u16>();
    let flags = if flags & 0x009 == 0x009 { flags - 1 } else { flags };
    let values = Values {
        flags,
        log_window: rule.below(16) as u32,
        ack_number: acked,
        ack_time: rule.below(1 << 24) as u32,
        ack_count: rule.below(3) as u32,
        aoa,
        number,
        vector_base: acked,
        vector_size: rule.below(5) as u32,
        vector_stamped: rule.below(2) as u32,
        channel,
        ..Values::default()
    };
    let block_len = rule.below(20) as u32;
    (values, [values.ack_count, values.vector_size, block_len].map(|len| rule.bytes(len)))
}

/// Makes a datagram that is often well formed.
fn datagram(rule: &mut Rule, near: [u64; 3]) -> Vec<u8> {
    let (values, [additions, coded, block]) = values(rule, near);
    let mut d = written(&values, &additions, &coded, &block);
    if rule.below(4) == 0 {
        let at = rule.below(d.len() as u64) as usize;
        d[at] ^= 1 << rule.below(8);
    }
    if rule.below(8) == 0 {
        d.truncate(rule.below(d.len() as u64) as usize);
    }
    d
}

#[test]
fn what_is_written_is_read() {
    let mut rule = Rule(4_242);
    for _ in 0..5_000 {
        let (v, [additions, coded, block]) = values(&mut rule, [30; 3]);
        let d = written(&v, &additions, &coded, &block);
        let Ok(Reading::Packet(p)) = read(&d) else { panic!("refused") };
        assert_eq!((p.flags, u32::from(p.log_window)), (v.flags, v.log_window));
        assert!(p.aoa.is_none_or(|aoa| u32::from(aoa) == v.aoa));
        assert!(p.number.is_none_or(|number| u32::from(number) == v.number));
        assert!(p.ack.is_none_or(|a| (u32::from(a.number), a.time) == (v.ack_number, v.ack_time)));
        assert!(p.ack.is_none_or(|a| wire::bytes(&d, a.at, a.count.into()).eq(additions)));
        assert!(p.vector.is_none_or(|c| c.stamp.is_some() == (v.vector_stamped == 1)));
        assert!(p.vector.is_none_or(|c| wire::bytes(&d, c.at, c.size.into()).eq(coded)));
        if let Some(body) = p.body {
            let mut copied = vec![0; body.len];
            wire::copy(&d, body.at, &mut copied);
            assert_eq!((u32::from(body.channel), copied), (v.channel, block));
        }
    }
}

#[test]
fn random_calls() {
    let mut rule = Rule(0x1234_5678_9abc_def1);
    let mut accepted = 0;
    for round in 0..60 {
        let high = if round % 3 == 0 { (1 << 32) - 40 } else { 0 };
        let mut node = Node::open(round * 1_100, 65_535 - round, 300);
        node.s.low = node.s.low.max(high);
        (node.s.next, node.r.base) = (node.s.low, node.s.low);
        let mut tick = u32::MAX - 2_000;
        for _ in 0..150 {
            tick = tick.wrapping_add(rule.below(80) as u32);
            let near = [node.r.base, node.r.due, node.s.next.saturating_sub(20)];
            let len = [0, 1, 7, 900, 1_223, 1_224][rule.below(6) as usize];
            let answer = match rule.below(8) {
                0..=2 => node.receive(&datagram(&mut rule, near)),
                3 => node.send(tick, &rule.bytes(len)).err().unwrap_or(0),
                4 => node.resend(tick).err().unwrap_or(0),
                5 => node.sweep(tick).err().unwrap_or(0),
                6 => node.take().err().unwrap_or(0),
                _ => node.acknowledgement(tick).err().unwrap_or(0),
            };
            assert_ne!(answer, 13);
            accepted += u32::from(answer == 0);
        }
    }
    assert!(accepted > 3_000, "{accepted}");
}

/// Takes a number that lies near some limit.
fn limit(rule: &mut Rule) -> u64 {
    let limits = [0, 10, 20, 42, 65_535, (1 << 32) - 1, 1 << 32, u64::MAX - 31, u64::MAX];
    let chosen = limits[rule.below(limits.len() as u64) as usize];
    chosen.wrapping_add(rule.below(5)).wrapping_sub(2)
}

#[test]
fn random_records() {
    let mut rule = Rule(77);
    let mut good = Node::open(10, 20, 300);
    assert!((0..9).all(|_| good.send(0, b"abc").is_ok()));
    assert_eq!(good.receive(&data(None, 12, 22, b"")), 0);
    let number_states = [NumberState::Unused, NumberState::Pending, NumberState::Lost];
    let block_states = [BlockState::Vacant, BlockState::Waiting, BlockState::InFlight];
    for _ in 0..4_000 {
        let mut node = good.clone();
        for _ in 0..=rule.below(3) {
            let at = rule.below(32) as usize;
            match rule.below(13) {
                0 => node.s.first_data = limit(&mut rule),
                1 => node.s.first_channel = limit(&mut rule),
                2 => node.s.low = limit(&mut rule),
                3 => node.s.next = limit(&mut rule),
                4 => node.s.channel_low = limit(&mut rule),
                5 => node.s.channel_next = limit(&mut rule),
                6 => node.s.numbers[at].channel = limit(&mut rule),
                7 => node.s.numbers[at].state = number_states[at % 3],
                8 => node.s.blocks[at].state = block_states[at % 3],
                9 => node.r.base = limit(&mut rule),
                10 => node.r.end = limit(&mut rule),
                11 => node.r.due = limit(&mut rule),
                _ => node.r.holds[at] = Some(limit(&mut rule) as u16),
            }
        }
        let bad = [!node.s.is_consistent(), !node.r.is_consistent()];
        let d = datagram(&mut rule, [10, 20, 10]);
        let Node { s, r, mut sent, mut held, mut out } = node;
        let answer = endpoint::receive::<true>(&mut s.clone(), &mut r.clone(), &mut held, &d);
        assert_eq!(answer == 13, bad[0] || bad[1]);
        assert_eq!(s.clone().acknowledge::<true>(&d) == 13, bad[0]);
        assert_eq!(s.clone().send::<true>(&mut sent, 0, b"", &mut out) == Err(13), bad[0]);
        assert_eq!(s.clone().resend::<true>(&sent, 0, &mut out) == Err(13), bad[0]);
        assert_eq!(s.clone().sweep::<true>(9_999) == Err(13), bad[0]);
        assert_eq!(r.clone().take::<true>(&held, &mut out) == Err(13), bad[1]);
        assert_eq!(r.write_acknowledgement::<true>(0, 0, &mut out) == Err(13), bad[1]);
    }
}
