//! Reading a datagram into its packet.

use super::*;
use crate::refusal;

/// Reads a datagram without changing it.
pub fn read(d: &[u8]) -> Result<Reading, u8> {
    if !(DATAGRAM_LEAST..=DATAGRAM_MOST).contains(&d.len()) {
        return Err(refusal::LENGTH);
    }
    let prefix = byte_at(d, 0);
    match (prefix & 1, prefix >> 1 & 0x0f) {
        (0, 0) => {}
        (0, 8) => return Ok(Reading::Dummy),
        _ => return Err(refusal::PREFIX),
    }
    let short_len = usize::from(prefix >> 5);
    let dropped = if short_len == 0 { 0 } else { 7 - short_len };
    let mut cursor = Cursor { d, place: 1, end: d.len() - dropped };
    packet(&mut cursor).map(Reading::Packet)
}

/// Reads the header, then the flagged payloads in their fixed order.
fn packet(cursor: &mut Cursor) -> Result<Packet, u8> {
    let header = cursor.u16()?;
    let flags = header & 0x0fff;
    let log_window = (header >> 12) as u8;
    if flags & !KNOWN != 0 {
        return Err(refusal::FLAG);
    }
    if flags & ACK != 0 && flags & ACKVEC != 0 {
        return Err(refusal::TWO_ACKS);
    }
    let mut packet = Packet { flags, log_window, ..Packet::default() };
    if flags & ACK != 0 {
        packet.ack = Some(ack(cursor)?);
    }
    if flags & OVERHEADSIZE != 0 {
        packet.overhead = Some(cursor.u8()?);
    }
    if flags & DELAYACKINFO != 0 {
        packet.delay = Some(Delay { most: cursor.u8()?, timeout: cursor.u16()? });
    }
    if flags & AOA != 0 {
        packet.aoa = Some(cursor.u16()?);
    }
    if flags & DATA != 0 {
        packet.number = Some(cursor.u16()?);
    }
    if flags & ACKVEC != 0 {
        packet.vector = Some(vector(cursor)?);
    }
    if flags & DATA != 0 {
        let channel = cursor.u16()?;
        packet.body = Some(Body { channel, at: cursor.place, len: cursor.left() });
    } else if cursor.left() != 0 {
        return Err(refusal::LEFT_OVER);
    }
    Ok(packet)
}

fn ack(cursor: &mut Cursor) -> Result<Ack, u8> {
    let number = cursor.u16()?;
    let time = cursor.u24()?;
    let gap = cursor.u8()?;
    let counts = cursor.u8()?;
    let (count, scale) = (counts & 0x0f, counts >> 4);
    let at = cursor.pass(usize::from(count))?;
    Ok(Ack { number, time, gap, count, scale, at })
}

fn vector(cursor: &mut Cursor) -> Result<Vector, u8> {
    let base = cursor.u16()?;
    let sizes = cursor.u8()?;
    let size = sizes & 0x7f;
    let mut stamp = None;
    if sizes & 0x80 != 0 {
        stamp = Some(Stamp { time: cursor.u24()?, gap: cursor.u8()? });
    }
    let at = cursor.pass(usize::from(size))?;
    Ok(Vector { base, size, stamp, at })
}

/// The place up to which a datagram is read, and the place where its packet ends.
struct Cursor<'a> {
    d: &'a [u8],
    place: usize,
    end: usize,
}

impl Cursor<'_> {
    fn left(&self) -> usize {
        self.end - self.place
    }

    /// Goes past `len` bytes and gives the place of the first of them.
    fn pass(&mut self, len: usize) -> Result<usize, u8> {
        if len > self.left() {
            return Err(refusal::PAST_END);
        }
        self.place += len;
        Ok(self.place - len)
    }

    fn u8(&mut self) -> Result<u8, u8> {
        let at = self.pass(1)?;
        Ok(byte_at(self.d, at))
    }

    fn u16(&mut self) -> Result<u16, u8> {
        let at = self.pass(2)?;
        Ok(u16::from_le_bytes([byte_at(self.d, at), byte_at(self.d, at + 1)]))
    }

    fn u24(&mut self) -> Result<u32, u8> {
        let at = self.pass(3)?;
        let byte = |i| byte_at(self.d, at + i);
        Ok(u32::from_le_bytes([byte(0), byte(1), byte(2), 0]))
    }
}
