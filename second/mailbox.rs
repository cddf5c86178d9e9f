//! The mailbox rings of Section 4 (M-105): a send ring and a receive ring of 32-byte elements, and
//! the messages that travel in them.

use crate::record::{judge_buffer, judge_length, refuse, unless_broken};
use crate::record::{Direction, Judged};

pub const ELEMENT: usize = 32;
pub const MOST_SIZE: u64 = 1023;
pub const MOST_LENGTH: u64 = 4096;
/// AQ_LARGE_BUF: a longer buffer has the flag LB.
pub const LARGE: u64 = 512;

/// Table 4-9.
pub const SEND_TO_PF: u16 = 0x0801;
pub const MESSAGE_FROM_PF: u16 = 0x0802;
pub const QUEUE_SHUTDOWN: u16 = 0x0003;

/// Table 4-2's flags. Bytes 0 and 1 are one little-endian number here, so 1.1 is bit 9 of it.
pub const DD: u16 = flag(0, 0);
pub const ERR: u16 = flag(0, 2);
pub const LB: u16 = flag(1, 1);
pub const RD: u16 = flag(1, 2);
pub const VFC: u16 = flag(1, 3);
pub const BUF: u16 = flag(1, 4);
pub const SI: u16 = flag(1, 5);
pub const EI: u16 = flag(1, 6);
pub const FE: u16 = flag(1, 7);

const fn flag(byte: u32, bit: u32) -> u16 {
    1 << (8 * byte + bit)
}

/// The flags that Tables 4-6 and 4-8 mark 'Echo'.
pub const ECHO: [u16; 7] = [LB, RD, VFC, BUF, SI, EI, FE];

/// The record of either ring; a receive ring is never shut.
#[derive(Clone, Copy, Debug, Default, PartialEq, Eq)]
pub struct Ring {
    pub size: u64,
    pub head: u64,
    pub posted: u64,
    /// Whether a shutdown was posted.
    pub shut: bool,
}

impl Ring {
    pub fn judge(&self) -> Judged<()> {
        unless_broken(self.size == 0, 1, "size 0")?;
        unless_broken(self.size > MOST_SIZE, 1, "size above 1,023")?;
        unless_broken(self.head >= self.size, 1, "head not below size")?;
        unless_broken(self.posted > self.size - 1, 1, "posted above size - 1")
    }

    pub fn fresh(size: u64) -> Judged<Ring> {
        let record = Ring { size, ..Ring::default() };
        record.judge()?;
        Ok(record)
    }

    /// The slot at this distance from head. Only of a judged record.
    pub fn slot(&self, distance: u64) -> usize {
        ((self.head + distance) % self.size) as usize
    }

    pub fn tail_value(&self) -> Judged<u64> {
        self.judge()?;
        Ok(self.slot(self.posted) as u64)
    }

    /// Sections 7.2.3.5 and 7.2.3.10.
    pub fn tail_register(&self, direction: Direction) -> Judged<u64> {
        self.judge()?;
        Ok(match direction {
            Direction::Transmit => 0x8400,
            Direction::Receive => 0x7000,
        })
    }

    pub fn moved_on(&self) -> Ring {
        Ring { head: self.slot(1) as u64, posted: self.posted - 1, ..*self }
    }

    fn judge_open(&self) -> Judged<()> {
        unless_broken(self.shut, 12, "a shutdown was posted")
    }

    fn judge_room(&self) -> Judged<()> {
        unless_broken(self.size == 1, 3, NO_ROOM[0])?;
        unless_broken(self.posted >= self.size.saturating_sub(1), 3, NO_ROOM[1])
    }
}

/// Why a ring is full.
pub const NO_ROOM: [&str; 2] = ["a ring of 1", "all but one slot posted"];

/// What a ring's record asks to be lent: 32 bytes a slot, and the companion list, which keeps the
/// first four bytes of each posted element as one number.
pub struct Lent<'a> {
    pub ring: &'a mut [u8],
    pub list: &'a mut [u32],
}

pub fn judge_lent(record: &Ring, ring: &[u8], list: &[u32]) -> Judged<()> {
    record.judge()?;
    judge_length(ring.len(), 32 * record.size, ["ring too short", "ring too long"])?;
    judge_length(list.len(), record.size, ["list too short", "list too long"])
}

/// The 32 bytes by their fields.
#[derive(Clone, Copy, Debug, Default, PartialEq, Eq)]
pub struct Element {
    pub flags: u16,
    pub opcode: u16,
    pub length: u16,
    pub value: u16,
    /// As the bytes stand; Intel's two halves mean nothing here.
    pub cookie: [u8; 8],
    pub param0: u32,
    pub param1: u32,
    pub address: u64,
}

impl Element {
    pub fn bytes(&self) -> [u8; ELEMENT] {
        let mut bytes = [0; ELEMENT];
        bytes[0..2].copy_from_slice(&self.flags.to_le_bytes());
        bytes[2..4].copy_from_slice(&self.opcode.to_le_bytes());
        bytes[4..6].copy_from_slice(&self.length.to_le_bytes());
        bytes[6..8].copy_from_slice(&self.value.to_le_bytes());
        bytes[8..16].copy_from_slice(&self.cookie);
        bytes[16..20].copy_from_slice(&self.param0.to_le_bytes());
        bytes[20..24].copy_from_slice(&self.param1.to_le_bytes());
        let (high, low) = ((self.address >> 32) as u32, self.address as u32);
        bytes[24..28].copy_from_slice(&high.to_le_bytes());
        bytes[28..32].copy_from_slice(&low.to_le_bytes());
        bytes
    }

    pub fn read(bytes: &[u8]) -> Element {
        let two = |place: usize| u16::from_le_bytes([bytes[place], bytes[place + 1]]);
        let four = |place: usize| u32::from(two(place)) | u32::from(two(place + 2)) << 16;
        let mut cookie = [0; 8];
        cookie.copy_from_slice(&bytes[8..16]);
        Element {
            flags: two(0),
            opcode: two(2),
            length: two(4),
            value: two(6),
            cookie,
            param0: four(16),
            param1: four(20),
            address: u64::from(four(24)) << 32 | u64::from(four(28)),
        }
    }

    /// What the companion list keeps of it.
    pub fn companion(&self) -> u32 {
        u32::from(self.opcode) << 16 | u32::from(self.flags)
    }

    pub fn has(&self, flag: u16) -> bool {
        self.flags & flag != 0
    }
}

/// A number's flag, if it is asked for.
fn asked(flag: u16, set: bool) -> u16 {
    if set {
        flag
    } else {
        0
    }
}

/// The interrupt and flush flags of a request.
#[derive(Clone, Copy, Debug, Default, PartialEq, Eq)]
pub struct Marks {
    pub si: bool,
    pub ei: bool,
    pub fe: bool,
}

impl Marks {
    fn flags(&self) -> u16 {
        asked(SI, self.si) | asked(EI, self.ei) | asked(FE, self.fe)
    }
}

/// Send to PF, and how much of the buffer is lent with it.
#[derive(Clone, Copy, Debug, Default, PartialEq, Eq)]
pub struct Message {
    pub buf: bool,
    pub length: u64,
    pub address: u64,
    pub lent: usize,
    pub marks: Marks,
    pub cookie: [u8; 8],
}

#[derive(Clone, Copy, Debug, Default, PartialEq, Eq)]
pub struct Shutdown {
    pub unloading: bool,
    pub marks: Marks,
    pub cookie: [u8; 8],
}

/// A receive element, and how much of the buffer is lent with it. It has no FE.
#[derive(Clone, Copy, Debug, Default, PartialEq, Eq)]
pub struct Post {
    pub length: u64,
    pub address: u64,
    pub lent: usize,
    pub si: bool,
    pub ei: bool,
}

/// Why a length is answered 11: the first three are alone, so that each is seen to be judged.
pub const WRONG_LENGTH: [&str; 4] = [
    "length above the buffer lent alone",
    "length above 4,096 alone",
    "length without BUF alone",
    "length wrong in several ways",
];
/// A receive post's length of 0 is wrong in no other way.
pub const NO_LENGTH: &str = "length 0";

pub fn judge_message_length(length: u64, lent: usize, buf: bool) -> Judged<()> {
    let wrong = [length > lent as u64, length > MOST_LENGTH, length != 0 && !buf];
    match wrong {
        [false, false, false] => Ok(()),
        [true, false, false] => refuse(11, WRONG_LENGTH[0]),
        [false, true, false] => refuse(11, WRONG_LENGTH[1]),
        [false, false, true] => refuse(11, WRONG_LENGTH[2]),
        _ => refuse(11, WRONG_LENGTH[3]),
    }
}

/// A call's checks in their order. Each is judged whatever the others say, so that the table of
/// clauses sees which would have been broken too.
pub type Checks = Vec<Judged<()>>;

pub fn first_broken(checks: &Checks) -> Judged<()> {
    checks.iter().copied().find(Result::is_err).unwrap_or(Ok(()))
}

impl Message {
    pub fn checks(&self, record: &Ring, ring: &[u8], list: &[u32]) -> Checks {
        let end = if self.buf { judge_buffer(self.address, self.length) } else { Ok(()) };
        vec![
            judge_lent(record, ring, list),
            record.judge_open(),
            judge_message_length(self.length, self.lent, self.buf),
            end,
            record.judge_room(),
        ]
    }

    /// RD says that there is something to read: Table 4-4 has it with a length of 0 as EINVAL.
    pub fn element(&self) -> Element {
        let large = self.buf && self.length > LARGE;
        let read = self.buf && self.length != 0;
        let flags = asked(BUF, self.buf) | asked(LB, large) | asked(RD, read);
        Element {
            flags: flags | self.marks.flags(),
            opcode: SEND_TO_PF,
            length: self.length as u16,
            cookie: self.cookie,
            address: if self.buf { self.address } else { 0 },
            ..Element::default()
        }
    }
}

impl Shutdown {
    pub fn checks(&self, record: &Ring, ring: &[u8], list: &[u32]) -> Checks {
        vec![judge_lent(record, ring, list), record.judge_open(), record.judge_room()]
    }

    pub fn element(&self) -> Element {
        Element {
            flags: self.marks.flags(),
            opcode: QUEUE_SHUTDOWN,
            cookie: self.cookie,
            param0: u32::from(self.unloading),
            ..Element::default()
        }
    }
}

impl Post {
    pub fn checks(&self, record: &Ring, ring: &[u8], list: &[u32]) -> Checks {
        let length = match self.length {
            0 => refuse(11, NO_LENGTH),
            length => judge_message_length(length, self.lent, true),
        };
        vec![
            judge_lent(record, ring, list),
            length,
            judge_buffer(self.address, self.length),
            record.judge_room(),
        ]
    }

    /// Table 4-10: BUF always, RD and FE never.
    pub fn element(&self) -> Element {
        let large = self.length > LARGE;
        Element {
            flags: BUF | asked(LB, large) | asked(SI, self.si) | asked(EI, self.ei),
            length: self.length as u16,
            address: self.address,
            ..Element::default()
        }
    }
}

/// Writes an element at the tail, and keeps its first four bytes.
fn store(record: &Ring, lent: &mut Lent, element: &Element) -> Ring {
    let tail = record.slot(record.posted);
    lent.ring[ELEMENT * tail..][..ELEMENT].copy_from_slice(&element.bytes());
    lent.list[tail] = element.companion();
    Ring { posted: record.posted + 1, ..*record }
}

pub fn send(record: Ring, lent: &mut Lent, message: &Message) -> Judged<Ring> {
    first_broken(&message.checks(&record, lent.ring, lent.list))?;
    Ok(store(&record, lent, &message.element()))
}

/// Only an accepted shutdown shuts the ring.
pub fn shut_down(record: Ring, lent: &mut Lent, shutdown: &Shutdown) -> Judged<Ring> {
    first_broken(&shutdown.checks(&record, lent.ring, lent.list))?;
    Ok(Ring { shut: true, ..store(&record, lent, &shutdown.element()) })
}

pub fn post(record: Ring, lent: &mut Lent, post: &Post) -> Judged<Ring> {
    first_broken(&post.checks(&record, lent.ring, lent.list))?;
    Ok(store(&record, lent, &post.element()))
}
