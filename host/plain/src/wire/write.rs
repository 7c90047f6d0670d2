//! Writing packet values as a datagram.

use super::*;
use crate::refusal;

/// The values of every field, kept wide so that one too large for its field can be told.
#[derive(Clone, Copy, PartialEq, Eq, Debug, Default)]
pub struct Values {
    pub flags: u16,
    pub log_window: u32,
    pub ack_number: u32,
    pub ack_time: u32,
    pub ack_gap: u32,
    pub ack_count: u32,
    pub ack_scale: u32,
    pub overhead: u32,
    pub delay_most: u32,
    pub delay_timeout: u32,
    pub aoa: u32,
    pub number: u32,
    pub vector_base: u32,
    pub vector_size: u32,
    /// Whether the vector's time and gap are present, 0 or 1.
    pub vector_stamped: u32,
    pub vector_time: u32,
    pub vector_gap: u32,
    pub channel: u32,
}

/// Writes a datagram from values, an ACK's additions, a coded vector and a block.
pub fn write(
    values: &Values,
    additions: &[u8],
    vector: &[u8],
    body: &[u8],
    out: &mut [u8],
) -> Result<usize, u8> {
    if values.flags & !KNOWN != 0 {
        return Err(refusal::FLAG);
    }
    if values.has(ACK) && values.has(ACKVEC) {
        return Err(refusal::TWO_ACKS);
    }
    let packet_len = values.packet_len(additions, vector, body);
    if !values.fit(additions, vector) || 1 + packet_len > DATAGRAM_MOST {
        return Err(refusal::TOO_WIDE);
    }
    let len = (1 + packet_len).max(DATAGRAM_LEAST);
    let out = out.get_mut(..len).ok_or(refusal::OUTPUT)?;
    values.put(additions, vector, body, &mut Pen { out, at: 1 });
    out[1 + packet_len..].fill(0);
    let short_len = if packet_len < 7 { packet_len as u8 } else { 0 };
    exchange(short_len << 5, out);
    Ok(len)
}

/// Frames a packet that stands from place 1 on: sets the prefix and exchanges it with place 7.
pub fn exchange(prefix: u8, out: &mut [u8]) {
    out[0] = prefix;
    out.swap(0, 7);
}

impl Values {
    fn has(&self, flag: u16) -> bool {
        self.flags & flag != 0
    }

    fn packet_len(&self, additions: &[u8], vector: &[u8], body: &[u8]) -> usize {
        let stamp_len = if self.vector_stamped != 0 { 4 } else { 0 };
        let payloads = [
            (ACK, 7 + additions.len()),
            (OVERHEADSIZE, 1),
            (DELAYACKINFO, 3),
            (AOA, 2),
            (DATA, 4 + body.len()),
            (ACKVEC, 3 + stamp_len + vector.len()),
        ];
        let flagged = payloads.iter().filter(|(flag, _)| self.has(*flag));
        2 + flagged.map(|(_, len)| len).sum::<usize>()
    }

    /// Says whether each flagged value fits its field and each count is that of its bytes.
    fn fit(&self, additions: &[u8], vector: &[u8]) -> bool {
        let fits = |value: u32, bits: u32| value >> bits == 0;
        let ack = fits(self.ack_count, 4)
            && self.ack_count as usize == additions.len()
            && fits(self.ack_scale, 4)
            && fits(self.ack_gap, 8)
            && fits(self.ack_time, 24)
            && fits(self.ack_number, 16);
        let delay = fits(self.delay_most, 8) && fits(self.delay_timeout, 16);
        let data = fits(self.number, 16) && fits(self.channel, 16);
        let stamp = fits(self.vector_time, 24) && fits(self.vector_gap, 8);
        let coded = fits(self.vector_size, 7)
            && self.vector_size as usize == vector.len()
            && fits(self.vector_stamped, 1)
            && (self.vector_stamped == 0 || stamp)
            && fits(self.vector_base, 16);
        fits(self.log_window, 4)
            && (!self.has(ACK) || ack)
            && (!self.has(OVERHEADSIZE) || fits(self.overhead, 8))
            && (!self.has(DELAYACKINFO) || delay)
            && (!self.has(AOA) || fits(self.aoa, 16))
            && (!self.has(DATA) || data)
            && (!self.has(ACKVEC) || coded)
    }

    /// Writes the header and the flagged payloads.
    fn put(&self, additions: &[u8], vector: &[u8], body: &[u8], pen: &mut Pen) {
        pen.number::<2>(u32::from(self.flags) | self.log_window << 12);
        if self.has(ACK) {
            pen.number::<2>(self.ack_number);
            pen.number::<3>(self.ack_time);
            pen.number::<1>(self.ack_gap);
            pen.number::<1>(self.ack_count | self.ack_scale << 4);
            pen.bytes(additions);
        }
        if self.has(OVERHEADSIZE) {
            pen.number::<1>(self.overhead);
        }
        if self.has(DELAYACKINFO) {
            pen.number::<1>(self.delay_most);
            pen.number::<2>(self.delay_timeout);
        }
        if self.has(AOA) {
            pen.number::<2>(self.aoa);
        }
        if self.has(DATA) {
            pen.number::<2>(self.number);
        }
        if self.has(ACKVEC) {
            pen.number::<2>(self.vector_base);
            pen.number::<1>(self.vector_size | self.vector_stamped << 7);
            if self.vector_stamped != 0 {
                pen.number::<3>(self.vector_time);
                pen.number::<1>(self.vector_gap);
            }
            pen.bytes(vector);
        }
        if self.has(DATA) {
            pen.number::<2>(self.channel);
            pen.bytes(body);
        }
    }
}

/// The output and the place up to which it is written; its room was measured before.
struct Pen<'a> {
    out: &'a mut [u8],
    at: usize,
}

impl Pen<'_> {
    fn bytes(&mut self, bytes: &[u8]) {
        self.out[self.at..][..bytes.len()].copy_from_slice(bytes);
        self.at += bytes.len();
    }

    /// Writes the low N bytes of a number.
    fn number<const N: usize>(&mut self, value: u32) {
        self.bytes(&value.to_le_bytes()[..N]);
    }
}
