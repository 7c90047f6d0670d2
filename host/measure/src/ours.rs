//! The proved endpoint as the crate `measured` exports it: its records, laid out as C lays them out, and a safe function for
//! each export.
//!
//! Nothing checks these declarations against the Rattle source: they say again what stands in `numbers`, `wire`, `sender`,
//! `receiver` and `measured`. A record comes back through a pointer that goes first, which is how the library's code returns
//! it on either kind of machine.

#[repr(C)]
#[derive(Clone, Copy, PartialEq, Eq, Debug, Default)]
pub struct NumberPlace {
    pub channel: u64,
    pub tick: u32,
    pub state: u8,
}

#[repr(C)]
#[derive(Clone, Copy, PartialEq, Eq, Debug, Default)]
pub struct BlockPlace {
    pub state: u8,
    pub sends: u8,
    pub length: u16,
}

#[repr(C)]
#[derive(Clone, Copy, PartialEq, Eq, Debug, Default)]
pub struct Sender {
    pub firstdata: u64,
    pub firstchannel: u64,
    pub timeout: u32,
    pub logwindow: u8,
    pub low: u64,
    pub next: u64,
    pub channellow: u64,
    pub channelnext: u64,
    pub numbers: [NumberPlace; 32],
    pub blocks: [BlockPlace; 32],
}

#[repr(C)]
#[derive(Clone, Copy, PartialEq, Eq, Debug, Default)]
pub struct Hold {
    pub held: u8,
    pub length: u16,
}

#[repr(C)]
#[derive(Clone, Copy, PartialEq, Eq, Debug, Default)]
pub struct Receiver {
    pub firstdata: u64,
    pub firstchannel: u64,
    pub base: u64,
    pub end: u64,
    pub due: u64,
    pub marks: [u8; 32],
    pub holds: [Hold; 32],
}

#[repr(C)]
#[derive(Clone, Copy, PartialEq, Eq, Debug, Default)]
pub struct Both {
    pub sender: Sender,
    pub receiver: Receiver,
}

#[repr(C)]
#[derive(Clone, Copy, PartialEq, Eq, Debug, Default)]
pub struct Ack {
    pub number: u16,
    pub time: u32,
    pub gap: u8,
    pub count: u8,
    pub scale: u8,
}

#[repr(C)]
#[derive(Clone, Copy, PartialEq, Eq, Debug, Default)]
pub struct Delay {
    pub most: u8,
    pub timeout: u16,
}

#[repr(C)]
#[derive(Clone, Copy, PartialEq, Eq, Debug, Default)]
pub struct Vector {
    pub base: u16,
    pub size: u8,
    pub timed: bool,
    pub time: u32,
    pub gap: u8,
}

#[repr(C)]
#[derive(Clone, Copy, PartialEq, Eq, Debug, Default)]
pub struct Values {
    pub flags: u16,
    pub logwindow: u8,
    pub ack: Ack,
    pub overhead: u8,
    pub delay: Delay,
    pub aoa: u16,
    pub number: u16,
    pub vector: Vector,
    pub channel: u16,
}

#[repr(C)]
#[derive(Clone, Copy, PartialEq, Eq, Debug, Default)]
pub struct Packet {
    pub values: Values,
    pub additions: usize,
    pub vector: usize,
    pub body: usize,
    pub bytes: usize,
}

#[repr(C)]
#[derive(Clone, Copy, PartialEq, Eq, Debug, Default)]
pub struct Told {
    pub packet: Packet,
    pub answer: u8,
    pub dummy: bool,
}

/// Datagrams or blocks one after another, and where each ends.
#[derive(Clone, Copy)]
pub struct Parts<'a> {
    pub bytes: &'a [u8],
    pub ends: &'a [u32],
}

impl<'a> Parts<'a> {
    /// The parts one by one.
    #[inline]
    pub fn iter(self) -> impl Iterator<Item = &'a [u8]> {
        let mut from = 0;
        self.ends.iter().map(move |&end| {
            let part = &self.bytes[from..end as usize];
            from = end as usize;
            part
        })
    }
}

mod exported {
    use super::{Both, Receiver, Sender, Told};

    extern "C" {
        pub fn measured_read(told: *mut Told, d: *const u8, length: usize) -> *mut Told;

        pub fn measured_acknowledge(
            after: *mut Sender,
            s: Sender,
            bytes: *const u8,
            length: usize,
            ends: *const u32,
            parts: usize,
            answers: *mut u8,
            places: usize,
        ) -> *mut Sender;

        pub fn measured_receive(
            after: *mut Both,
            s: Sender,
            r: Receiver,
            store: *mut u8,
            size: usize,
            bytes: *const u8,
            length: usize,
            ends: *const u32,
            parts: usize,
            answers: *mut u8,
            places: usize,
        ) -> *mut Both;

        pub fn measured_send(
            after: *mut Sender,
            s: Sender,
            store: *mut u8,
            size: usize,
            tick: u32,
            bytes: *const u8,
            length: usize,
            ends: *const u32,
            parts: usize,
            out: *mut u8,
            room: usize,
            answers: *mut u32,
            places: usize,
        ) -> *mut Sender;

        pub fn measured_take(
            after: *mut Receiver,
            r: Receiver,
            store: *const u8,
            size: usize,
            out: *mut u8,
            room: usize,
            answers: *mut u32,
            places: usize,
        ) -> *mut Receiver;
    }
}

/// Reads one datagram.
#[inline]
pub fn read(d: &[u8]) -> Told {
    let mut told = Told::default();
    // SAFETY: the pointers come from references, with their lengths.
    unsafe { exported::measured_read(&mut told, d.as_ptr(), d.len()) };
    told
}

/// Takes datagrams into the sender's half alone.
#[inline]
pub fn acknowledge(s: &Sender, after: &mut Sender, parts: Parts, answers: &mut [u8]) {
    let Parts { bytes, ends } = parts;
    // SAFETY: the pointers come from references, with their lengths, and what is written overlaps nothing.
    unsafe {
        exported::measured_acknowledge(
            after,
            *s,
            bytes.as_ptr(),
            bytes.len(),
            ends.as_ptr(),
            ends.len(),
            answers.as_mut_ptr(),
            answers.len(),
        )
    };
}

/// Receives datagrams into both halves.
#[inline]
pub fn receive(both: &Both, after: &mut Both, store: &mut [u8], parts: Parts, answers: &mut [u8]) {
    let Parts { bytes, ends } = parts;
    // SAFETY: as above.
    unsafe {
        exported::measured_receive(
            after,
            both.sender,
            both.receiver,
            store.as_mut_ptr(),
            store.len(),
            bytes.as_ptr(),
            bytes.len(),
            ends.as_ptr(),
            ends.len(),
            answers.as_mut_ptr(),
            answers.len(),
        )
    };
}

/// Sends blocks, each datagram over the one before it.
#[inline]
pub fn send(
    s: &Sender,
    after: &mut Sender,
    store: &mut [u8],
    tick: u32,
    parts: Parts,
    out: &mut [u8],
    answers: &mut [u32],
) {
    let Parts { bytes, ends } = parts;
    // SAFETY: as above.
    unsafe {
        exported::measured_send(
            after,
            *s,
            store.as_mut_ptr(),
            store.len(),
            tick,
            bytes.as_ptr(),
            bytes.len(),
            ends.as_ptr(),
            ends.len(),
            out.as_mut_ptr(),
            out.len(),
            answers.as_mut_ptr(),
            answers.len(),
        )
    };
}

/// Takes as many blocks as there are answers, each over the one before it.
#[inline]
pub fn take(r: &Receiver, after: &mut Receiver, store: &[u8], out: &mut [u8], answers: &mut [u32]) {
    // SAFETY: as above.
    unsafe {
        exported::measured_take(
            after,
            *r,
            store.as_ptr(),
            store.len(),
            out.as_mut_ptr(),
            out.len(),
            answers.as_mut_ptr(),
            answers.len(),
        )
    };
}
