//! A whole endpoint: opening both halves, and receiving a datagram into both.

use crate::receiver::Receiver;
use crate::refusal;
use crate::sender::{Sender, TIMEOUT_LEAST, TIMEOUT_MOST};
use crate::store::STORE_LEN;
use crate::wire::{self, Reading};

/// Opens both halves with the same first numbers.
pub fn open(first_data: u32, first_channel: u32, timeout: u32) -> Result<(Sender, Receiver), u8> {
    let first_data = u16::try_from(first_data).map_err(|_| refusal::OPENING)?;
    let first_channel = u16::try_from(first_channel).map_err(|_| refusal::OPENING)?;
    if !(TIMEOUT_LEAST..=TIMEOUT_MOST).contains(&timeout) {
        return Err(refusal::OPENING);
    }
    Ok((
        Sender::open(first_data, first_channel, timeout),
        Receiver::open(first_data, first_channel),
    ))
}

/// Takes a datagram into both halves, or into neither.
pub fn receive<const CHECK: bool>(
    s: &mut Sender,
    r: &mut Receiver,
    store: &mut [u8],
    d: &[u8],
) -> u8 {
    refusal::answer(try_receive::<CHECK>(s, r, store, d))
}

fn try_receive<const CHECK: bool>(
    s: &mut Sender,
    r: &mut Receiver,
    store: &mut [u8],
    d: &[u8],
) -> Result<(), u8> {
    let is_bad = CHECK && !(s.is_consistent() && r.is_consistent());
    if store.len() != STORE_LEN || is_bad {
        return Err(refusal::INCONSISTENT);
    }
    if let Reading::Packet(packet) = wire::read(d)? {
        let named = s.judge(d, &packet)?;
        let plan = r.judge(&packet)?;
        s.accept(named, &packet);
        r.accept(plan, store, d);
    }
    Ok(())
}
