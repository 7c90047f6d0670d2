//! Two endpoints exchange blocks over a channel that loses, reorders and repeats.

use super::*;

/// The block that goes out as the i-th in one direction.
fn block(side: usize, i: usize) -> Vec<u8> {
    let len = (i * 37 + side * 11) % 120 + if i % 50 == 49 { 1_104 } else { 0 };
    (0..len).map(|j| (i * 7 + j * 3 + side) as u8).collect()
}

/// Puts a datagram into the channel no, one or two times. So few are lost that no block needs a seventh send.
fn post(rule: &mut Rule, channel: &mut Vec<Vec<u8>>, d: Vec<u8>) {
    match rule.below(10) {
        0 => {}
        1 => channel.extend([d.clone(), d]),
        _ => channel.push(d),
    }
}

fn exchange(seed: u64, first_data: u32, first_channel: u32) {
    const BLOCKS: usize = 300;
    let mut rule = Rule(seed);
    let mut nodes = [0, 1].map(|_| Node::open(first_data, first_channel, 2_000));
    let mut channels: [Vec<Vec<u8>>; 2] = Default::default();
    let (mut sent, mut taken, mut swept) = ([0; 2], [0; 2], [0; 2]);
    let mut tick = u32::MAX - 3_000;
    for _ in 0..200_000 {
        tick = tick.wrapping_add(rule.below(12) as u32);
        let side = rule.below(2) as usize;
        let node = &mut nodes[side];
        match rule.below(16) {
            0..=3 if sent[side] < BLOCKS => {
                if let Ok(d) = node.send(tick, &block(side, sent[side])) {
                    sent[side] += 1;
                    post(&mut rule, &mut channels[1 - side], d);
                }
            }
            4 => swept[side] += node.sweep(tick).unwrap(),
            5 | 6 => {
                if let Ok(d) = node.resend(tick) {
                    post(&mut rule, &mut channels[1 - side], d);
                }
            }
            7 | 8 => {
                if let Ok(d) = node.acknowledgement(tick) {
                    post(&mut rule, &mut channels[1 - side], d);
                }
            }
            9 | 10 => {
                if let Ok(bytes) = node.take() {
                    assert_eq!(bytes, block(1 - side, taken[side]));
                    taken[side] += 1;
                }
            }
            _ if !channels[side].is_empty() => {
                let some = channels[side].len().min(6) as u64;
                let d = channels[side].remove(rule.below(some) as usize);
                node.receive(&d);
            }
            _ => {}
        }
        let is_done = |n: &Node| n.s.channel_low == u64::from(first_channel) + BLOCKS as u64;
        if taken == [BLOCKS; 2] && nodes.iter().all(is_done) {
            assert!(swept.iter().all(|lost| *lost > 20), "{swept:?}");
            assert_eq!(nodes[0].take(), Err(11));
            return;
        }
    }
    panic!("the exchange did not end: {sent:?} {taken:?}");
}

#[test]
fn everything_arrives_once_and_in_order() {
    exchange(1, 0, 0);
    exchange(2, 65_400, 65_500);
    exchange(3, 65_535, 0);
}
