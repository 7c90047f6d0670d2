//! The receiver: which data numbers arrived, which blocks are held, and its calls.

use crate::numbers::{place, widen_into, FIRST_MOST, PAST, WINDOW};
use crate::refusal;
use crate::store::{self, PLACE_LEN, STORE_LEN};
use crate::vector;
use crate::wire::{self, Body, Packet, Reading, Values};

/// Marks stand for data numbers from `base` to `base + 31`, holds for blocks from `due` to
/// `due + 31`; a hold is the block's length.
#[derive(Clone, Copy, PartialEq, Eq, Debug)]
pub struct Receiver {
    pub first_data: u64,
    pub first_channel: u64,
    pub base: u64,
    pub end: u64,
    pub due: u64,
    pub marks: [bool; 32],
    pub holds: [Option<u16>; 32],
}

/// What an accepted packet will do: the base after waiving, and the data it brings.
#[derive(Clone, Copy, Debug)]
pub(crate) struct Plan {
    base: u64,
    data: Option<Arrival>,
}

/// A data number that arrived, with its block's channel number and body.
#[derive(Clone, Copy, Debug)]
struct Arrival {
    number: u64,
    channel: u64,
    body: Body,
}

impl Receiver {
    /// Makes a record under which nothing has arrived yet.
    pub fn open(first_data: u16, first_channel: u16) -> Receiver {
        let (data, channel) = (u64::from(first_data), u64::from(first_channel));
        Receiver {
            first_data: data,
            first_channel: channel,
            base: data,
            end: data,
            due: channel,
            marks: [false; 32],
            holds: [None; 32],
        }
    }

    pub fn is_consistent(&self) -> bool {
        let data = self.first_data..=PAST;
        let channel = self.first_channel..=PAST;
        self.first_data <= FIRST_MOST
            && self.first_channel <= FIRST_MOST
            && data.contains(&self.base)
            && data.contains(&self.end)
            && channel.contains(&self.due)
            && self.end <= self.base + WINDOW
            && (self.end <= self.base || self.marks[place(self.end - 1)])
            && self.marks_fit()
            && self.holds_fit()
    }

    /// Judges that every mark lies above base and below end.
    fn marks_fit(&self) -> bool {
        (self.base..self.base + WINDOW)
            .all(|n| !self.marks[place(n)] || n != self.base && n < self.end)
    }

    /// Judges that every held block fits its place and the full range.
    fn holds_fit(&self) -> bool {
        (self.due..self.due + WINDOW).all(|c| {
            self.holds[place(c)].is_none_or(|len| usize::from(len) <= PLACE_LEN && c < PAST)
        })
    }

    /// Takes the data and the AckOfAcks of a datagram.
    pub fn receive<const CHECK: bool>(&mut self, store: &mut [u8], d: &[u8]) -> u8 {
        refusal::answer(self.try_receive::<CHECK>(store, d))
    }

    fn try_receive<const CHECK: bool>(&mut self, store: &mut [u8], d: &[u8]) -> Result<(), u8> {
        if store.len() != STORE_LEN || CHECK && !self.is_consistent() {
            return Err(refusal::INCONSISTENT);
        }
        if let Reading::Packet(packet) = wire::read(d)? {
            let plan = self.judge(&packet)?;
            self.accept(plan, store, d);
        }
        Ok(())
    }

    /// Widens the packet's numbers against the record as given and says what they will do.
    pub(crate) fn judge(&self, packet: &Packet) -> Result<Plan, u8> {
        let mut base = self.base;
        if let Some(field) = packet.aoa {
            let waived = widen_into(self.base, field, self.first_data..PAST);
            base = base.max(waived.ok_or(refusal::NUMBER)?);
        }
        let mut data = None;
        if let (Some(field), Some(body)) = (packet.number, packet.body) {
            let numbers = self.first_data..PAST.min(base + WINDOW);
            let channels = self.first_channel..PAST.min(self.due + WINDOW);
            let number = widen_into(self.base, field, numbers).ok_or(refusal::NUMBER)?;
            let channel = widen_into(self.due, body.channel, channels).ok_or(refusal::NUMBER)?;
            data = Some(Arrival { number, channel, body });
        }
        Ok(Plan { base, data })
    }

    /// Does what was planned.
    pub(crate) fn accept(&mut self, plan: Plan, store: &mut [u8], d: &[u8]) {
        self.waive(plan.base);
        if let Some(arrival) = plan.data {
            if arrival.number >= self.base {
                self.marks[place(arrival.number)] = true;
            }
            self.end = self.end.max(arrival.number + 1);
            self.hold(arrival, store, d);
        }
        while self.marks[place(self.base)] {
            self.marks[place(self.base)] = false;
            self.base += 1;
        }
    }

    /// Moves base up and forgets the marks below it.
    fn waive(&mut self, base: u64) {
        for n in self.base..base.min(self.base + WINDOW) {
            self.marks[place(n)] = false;
        }
        self.base = base;
    }

    /// Stores a block unless it is a repeat.
    fn hold(&mut self, arrival: Arrival, store: &mut [u8], d: &[u8]) {
        let Arrival { channel, body, .. } = arrival;
        let held = &mut self.holds[place(channel)];
        if channel >= self.due && held.is_none() {
            *held = Some(body.len as u16);
            wire::copy(d, body.at, store::block_mut(store, channel, body.len));
        }
    }

    /// Hands over the block that is due.
    pub fn take<const CHECK: bool>(&mut self, store: &[u8], out: &mut [u8]) -> Result<usize, u8> {
        if store.len() != STORE_LEN || CHECK && !self.is_consistent() {
            return Err(refusal::INCONSISTENT);
        }
        let len = self.holds[place(self.due)].ok_or(refusal::NOTHING)?;
        let block = store::block(store, self.due, len);
        out.get_mut(..block.len()).ok_or(refusal::OUTPUT)?.copy_from_slice(block);
        self.holds[place(self.due)] = None;
        self.due += 1;
        Ok(block.len())
    }

    /// Writes an ACK for the number before base if end is at most base, else a vector from base.
    pub fn write_acknowledgement<const CHECK: bool>(
        &self,
        stamp: u32,
        gap: u8,
        out: &mut [u8],
    ) -> Result<usize, u8> {
        if CHECK && !self.is_consistent() {
            return Err(refusal::INCONSISTENT);
        }
        if self.end > self.base {
            return self.write_vector(out);
        }
        if self.base == self.first_data {
            return Err(refusal::NOTHING);
        }
        let values = Values {
            flags: wire::ACK,
            log_window: wire::LOG_WINDOW,
            ack_number: u32::from((self.base - 1) as u16),
            ack_time: stamp & 0x00ff_ffff,
            ack_gap: u32::from(gap),
            ..Values::default()
        };
        wire::write(&values, &[], &[], &[], out)
    }

    /// Writes the states from base up to end; 32 of them take at most five bytes.
    fn write_vector(&self, out: &mut [u8]) -> Result<usize, u8> {
        let mut states = [false; 32];
        for (state, n) in states.iter_mut().zip(self.base..self.end) {
            *state = self.marks[place(n)];
        }
        let mut coded = [0; 5];
        let mut size = 0;
        for byte in vector::bytes(&states[..(self.end - self.base) as usize]) {
            coded[size] = byte;
            size += 1;
        }
        let values = Values {
            flags: wire::ACKVEC,
            log_window: wire::LOG_WINDOW,
            vector_base: u32::from(self.base as u16),
            vector_size: size as u32,
            ..Values::default()
        };
        wire::write(&values, &[], &coded[..size], &[], out)
    }
}
