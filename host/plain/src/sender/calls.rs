//! The sender's calls: sending, resending, being acknowledged, and sweeping for losses.

use super::{BlockPlace, BlockState, NumberPlace, NumberState, Sender, BLOCK_MOST, SENDS_MOST};
use crate::numbers::{age, place, widen_into, PAST, WINDOW};
use crate::refusal;
use crate::store::{self, STORE_LEN};
use crate::vector;
use crate::wire::{self, Packet, Reading, Values};

/// How many received numbers above a pending one show that it is lost.
const RECEIVED_ABOVE: u32 = 3;

impl Sender {
    /// Takes the acknowledgement of a datagram.
    pub fn acknowledge<const CHECK: bool>(&mut self, d: &[u8]) -> u8 {
        refusal::answer(self.try_acknowledge::<CHECK>(d))
    }

    fn try_acknowledge<const CHECK: bool>(&mut self, d: &[u8]) -> Result<(), u8> {
        if CHECK && !self.is_consistent() {
            return Err(refusal::INCONSISTENT);
        }
        if let Reading::Packet(packet) = wire::read(d)? {
            let named = self.judge(d, &packet)?;
            self.accept(named, &packet);
        }
        Ok(())
    }

    /// Takes an accepted packet: the numbers that it names, and its LogWindowSize.
    pub(crate) fn accept(&mut self, named: u32, packet: &Packet) {
        self.log_window = packet.log_window;
        self.mark_received(named);
    }

    /// Gives the set of places in range that the packet names, or refuses the packet.
    pub(crate) fn judge(&self, d: &[u8], packet: &Packet) -> Result<u32, u8> {
        let mut named = 0;
        if let Some(ack) = packet.ack {
            let last = widen_into(self.next, ack.number, self.first_data..self.next)
                .ok_or(refusal::ACKNOWLEDGEMENT)?;
            for n in self.low..=last {
                named |= 1 << place(n);
            }
        }
        if let Some(coded) = packet.vector {
            let base = widen_into(self.next, coded.base, self.first_data..)
                .ok_or(refusal::ACKNOWLEDGEMENT)?;
            let states = vector::states(wire::bytes(d, coded.at, usize::from(coded.size)));
            for (n, _) in (base..).zip(states).filter(|(_, received)| *received) {
                if n >= self.next {
                    return Err(refusal::ACKNOWLEDGEMENT);
                }
                if n >= self.low {
                    named |= 1 << place(n);
                }
            }
        }
        Ok(named)
    }

    /// Turns the named pending numbers into received ones and their blocks into acknowledged ones.
    fn mark_received(&mut self, named: u32) {
        if named == 0 {
            return;
        }
        for (i, number) in self.numbers.iter_mut().enumerate() {
            if named & 1 << i != 0 && number.state == NumberState::Pending {
                number.state = NumberState::Received;
                self.blocks[place(number.channel)].state = BlockState::Acknowledged;
            }
        }
        self.advance();
    }

    /// Sends a new block.
    pub fn send<const CHECK: bool>(
        &mut self,
        store: &mut [u8],
        tick: u32,
        block: &[u8],
        out: &mut [u8],
    ) -> Result<usize, u8> {
        if store.len() != STORE_LEN || CHECK && !self.is_consistent() {
            return Err(refusal::INCONSISTENT);
        }
        if block.len() > BLOCK_MOST {
            return Err(refusal::TOO_WIDE);
        }
        if self.next == PAST || self.channel_next == PAST {
            return Err(refusal::USED_UP);
        }
        if self.is_at_limit() || self.channel_next - self.channel_low == WINDOW {
            return Err(refusal::WINDOW_FULL);
        }
        let channel = self.channel_next;
        let len = self.write_data(channel, block, out)?;
        store::block_mut(store, channel, block.len()).copy_from_slice(block);
        self.blocks[place(channel)].len = block.len() as u16;
        self.channel_next += 1;
        self.launch(channel, tick);
        Ok(len)
    }

    /// Sends the lowest waiting block again, under a new data number.
    pub fn resend<const CHECK: bool>(
        &mut self,
        store: &[u8],
        tick: u32,
        out: &mut [u8],
    ) -> Result<usize, u8> {
        if store.len() != STORE_LEN || CHECK && !self.is_consistent() {
            return Err(refusal::INCONSISTENT);
        }
        let channel = (self.channel_low..self.channel_next)
            .find(|c| self.blocks[place(*c)].state == BlockState::Waiting)
            .ok_or(refusal::NOTHING)?;
        if self.blocks[place(channel)].sends == SENDS_MOST {
            return Err(refusal::SENT_OUT);
        }
        if self.next == PAST {
            return Err(refusal::USED_UP);
        }
        if self.is_at_limit() {
            return Err(refusal::WINDOW_FULL);
        }
        let block = store::block(store, channel, self.blocks[place(channel)].len);
        let len = self.write_data(channel, block, out)?;
        self.launch(channel, tick);
        Ok(len)
    }

    /// Says whether as many data numbers are out as the peer takes.
    fn is_at_limit(&self) -> bool {
        let takes = 1u64.checked_shl(u32::from(self.log_window)).unwrap_or(WINDOW);
        self.next - self.low >= takes.min(WINDOW)
    }

    /// Writes a data packet under the next data number; only 14 can refuse it here.
    fn write_data(&self, channel: u64, block: &[u8], out: &mut [u8]) -> Result<usize, u8> {
        let values = Values {
            flags: wire::AOA | wire::DATA,
            log_window: wire::LOG_WINDOW,
            aoa: u32::from(self.low as u16),
            number: u32::from(self.next as u16),
            channel: u32::from(channel as u16),
            ..Values::default()
        };
        wire::write(&values, &[], &[], block, out)
    }

    /// Notes that a block went out under the next data number.
    fn launch(&mut self, channel: u64, tick: u32) {
        let block = &mut self.blocks[place(channel)];
        block.state = BlockState::InFlight;
        block.sends += 1;
        self.numbers[place(self.next)] = NumberPlace { state: NumberState::Pending, channel, tick };
        self.next += 1;
    }

    /// Declares pending numbers lost, lets their blocks wait, and counts them.
    ///
    /// Going downwards judges the record as it was: a loss changes no count of received numbers.
    pub fn sweep<const CHECK: bool>(&mut self, tick: u32) -> Result<u32, u8> {
        if CHECK && !self.is_consistent() {
            return Err(refusal::INCONSISTENT);
        }
        let (mut received_above, mut lost) = (0, 0);
        for n in (self.low..self.next).rev() {
            let number = &mut self.numbers[place(n)];
            if number.state == NumberState::Received {
                received_above += 1;
            }
            if number.state == NumberState::Pending
                && (received_above >= RECEIVED_ABOVE || age(tick, number.tick) >= self.timeout)
            {
                number.state = NumberState::Lost;
                self.blocks[place(number.channel)].state = BlockState::Waiting;
                lost += 1;
            }
        }
        self.advance();
        Ok(lost)
    }

    /// Moves both lows as far as they go and zeroes the places they pass.
    fn advance(&mut self) {
        while self.low < self.next && self.numbers[place(self.low)].state != NumberState::Pending {
            self.numbers[place(self.low)] = NumberPlace::default();
            self.low += 1;
        }
        while self.channel_low < self.channel_next
            && self.blocks[place(self.channel_low)].state == BlockState::Acknowledged
        {
            self.blocks[place(self.channel_low)] = BlockPlace::default();
            self.channel_low += 1;
        }
    }
}
