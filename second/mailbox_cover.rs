//! What a script met of the mailbox: the clauses behind each answer, which causes came together,
//! what was stored over, and each field's bits. Readings have a file of their own.

use crate::cover::Seen;
use crate::mailbox::{Checks, Element, Message, Post, Ring, Shutdown};
use crate::mailbox::{BUF, EI, ELEMENT, FE, LARGE, LB, MOST_LENGTH, MOST_SIZE, RD, SI};
use crate::mailbox::{NO_LENGTH, NO_ROOM, WRONG_LENGTH};
use crate::mailbox_lines::Line;
use crate::record::{Direction, Judged, Refusal};

/// A call on a ring: the names under which its clauses stand in the table.
pub struct Call {
    pub name: &'static str,
    pub order: &'static str,
    pub ends: &'static str,
    pub limits: &'static str,
    pub slot: &'static str,
    pub shut: &'static str,
    pub summed: &'static str,
}

macro_rules! call {
    ($name:literal) => {
        Call {
            name: $name,
            order: concat!($name, " order"),
            ends: concat!($name, " ends"),
            limits: concat!($name, " limits"),
            slot: concat!($name, " slot"),
            shut: concat!($name, " shut"),
            summed: concat!($name, " summed"),
        }
    };
}

pub const SEND: Call = call!("msend");
pub const SHUT: Call = call!("mshut");
pub const POST: Call = call!("mpost");
pub const DONE: Call = call!("mdone");
pub const READ: Call = call!("mread");

const FRESH: [Call; 2] = [call!("mtx"), call!("mrx")];
pub const TAIL: [Call; 2] = [call!("mtxtail"), call!("mrxtail")];
pub const REGISTER: [Call; 2] = [call!("mtxreg"), call!("mrxreg")];

/// The place of a ring's name among two.
pub fn place(direction: Direction) -> usize {
    match direction {
        Direction::Transmit => 0,
        Direction::Receive => 1,
    }
}

const ASKED: &[&str] = &["size 0", "size above 1,023"];
const HANDED_IN: &[&str] = &["head not below size", "posted above size - 1"];
const LENT: &[&str] = &["ring too short", "ring too long", "list too short", "list too long"];
const SHUT_OUT: &[&str] = &["a shutdown was posted"];
const BUFFER: &[&str] = &["address 0", "address + length passes 2^64"];
const POST_LENGTH: &[&str] = &[NO_LENGTH, WRONG_LENGTH[0], WRONG_LENGTH[1], WRONG_LENGTH[3]];

/// What an accepted call stored.
const SENT: [&str; 7] = [
    "in the cookie",
    "BUF, length 0",
    "BUF, length 1 to 511",
    "BUF, length 512",
    "BUF, length 513",
    "BUF, length 514 to 4,095",
    "BUF, length 4,096",
];
const POSTED: &[&str] = &[SENT[2], SENT[3], SENT[4], SENT[5], SENT[6]];
const UNLOADS: [&str; 2] = ["stays", "unloads"];

pub fn sent_kind(element: &Element) -> &'static str {
    match u64::from(element.length) {
        _ if !element.has(BUF) => SENT[0],
        0 => SENT[1],
        LARGE => SENT[3],
        length if length == LARGE + 1 => SENT[4],
        MOST_LENGTH => SENT[6],
        length if length < LARGE => SENT[2],
        _ => SENT[5],
    }
}

pub fn shut_kind(shutdown: &Shutdown) -> &'static str {
    UNLOADS[usize::from(shutdown.unloading)]
}

/// Another cause that is broken beside the first, by its answer; and none.
pub const TOO: [(u8, &str); 7] = [
    (12, "12 too"),
    (11, "11 too"),
    (2, "2 too"),
    (3, "3 too"),
    (4, "4 too"),
    (5, "5 too"),
    (0, "alone"),
];

/// A number or a length that is one off, and no other is wrong.
const RECORD_ENDS: &[&str] = &["size 1,024", "head is size", "posted is size"];
const LENT_ENDS: [&str; 4] =
    ["ring a byte short", "ring a byte long", "list one short", "list one long"];

const SEND_DONE: [&str; 7] = [
    "as long as the buffer lent",
    "4,096 of a longer buffer",
    "ends at 2^64",
    "at address 1",
    "address 0 without BUF",
    "address 2^64 - 1 without BUF",
    "length 0 at 2^64 - 1",
];
const POST_DONE: &[&str] = &[SEND_DONE[0], SEND_DONE[1], SEND_DONE[2], SEND_DONE[3]];
pub const SEND_LENGTH: [&str; 4] = [
    "a byte more than lent",
    "4,097 of a longer buffer",
    "1 without BUF",
    "right in its low 16 bits",
];
const POST_LENGTHS: &[&str] = &[SEND_LENGTH[0], SEND_LENGTH[1], SEND_LENGTH[3]];
const SEND_ADDRESS: [&str; 2] = ["a byte past 2^64", "address 0 with length 0"];

/// The slot that an accepted call stored in.
const SLOT: [&str; 8] = [
    "of a ring of 2",
    "of a ring of 1,023",
    "the ring's last",
    "behind the ring's last",
    "now all but one are posted",
    "had no zero byte",
    "had another companion number",
    "between bytes not 0",
];
const SHUT_WITH: [&str; 3] = ["nothing posted", "some posted", "all but one posted"];
const WAS: &[&str] = &["was shut"];
const SUMMED: &[&str] = &["bytes not 0"];

/// Every clause of the mailbox that can be met, as in the table of the calls.
pub const CAUSES: &[(&str, u8, &[&str])] = &[
    ("mtx", 1, ASKED),
    (FRESH[0].ends, 1, &[RECORD_ENDS[0]]),
    (FRESH[0].shut, 0, WAS),
    (FRESH[0].shut, 1, WAS),
    ("mrx", 1, ASKED),
    (FRESH[1].ends, 1, &[RECORD_ENDS[0]]),
    ("mtxtail", 1, ASKED),
    ("mtxtail", 1, HANDED_IN),
    (TAIL[0].ends, 1, RECORD_ENDS),
    (TAIL[0].shut, 0, WAS),
    ("mtxreg", 1, ASKED),
    ("mtxreg", 1, HANDED_IN),
    (REGISTER[0].ends, 1, RECORD_ENDS),
    (REGISTER[0].shut, 0, WAS),
    ("mrxtail", 1, ASKED),
    ("mrxtail", 1, HANDED_IN),
    (TAIL[1].ends, 1, RECORD_ENDS),
    ("mrxreg", 1, ASKED),
    ("mrxreg", 1, HANDED_IN),
    (REGISTER[1].ends, 1, RECORD_ENDS),
    (SEND.name, 0, &SENT),
    (SEND.name, 1, ASKED),
    (SEND.name, 1, HANDED_IN),
    (SEND.name, 1, LENT),
    (SEND.name, 2, BUFFER),
    (SEND.name, 3, &NO_ROOM),
    (SEND.name, 11, &WRONG_LENGTH),
    (SEND.name, 12, SHUT_OUT),
    (SEND.order, 1, &[TOO[0].1, TOO[1].1, TOO[2].1, TOO[3].1, TOO[6].1]),
    (SEND.order, 12, &[TOO[1].1, TOO[2].1, TOO[3].1, TOO[6].1]),
    (SEND.order, 11, &[TOO[2].1, TOO[3].1, TOO[6].1]),
    (SEND.order, 2, &[TOO[3].1, TOO[6].1]),
    (SEND.ends, 1, RECORD_ENDS),
    (SEND.ends, 1, &LENT_ENDS),
    (SEND.limits, 0, &SEND_DONE),
    (SEND.limits, 2, &SEND_ADDRESS),
    (SEND.limits, 11, &SEND_LENGTH),
    (SEND.slot, 0, &SLOT),
    (SEND.shut, 12, &SHUT_WITH),
    (SHUT.name, 0, &UNLOADS),
    (SHUT.name, 1, ASKED),
    (SHUT.name, 1, HANDED_IN),
    (SHUT.name, 1, LENT),
    (SHUT.name, 3, &NO_ROOM),
    (SHUT.name, 12, SHUT_OUT),
    (SHUT.order, 1, &[TOO[0].1, TOO[3].1, TOO[6].1]),
    (SHUT.order, 12, &[TOO[3].1, TOO[6].1]),
    (SHUT.ends, 1, RECORD_ENDS),
    (SHUT.ends, 1, &LENT_ENDS),
    (SHUT.slot, 0, &SLOT),
    (SHUT.shut, 12, &SHUT_WITH),
    (POST.name, 0, POSTED),
    (POST.name, 1, ASKED),
    (POST.name, 1, HANDED_IN),
    (POST.name, 1, LENT),
    (POST.name, 2, BUFFER),
    (POST.name, 3, &NO_ROOM),
    (POST.name, 11, POST_LENGTH),
    (POST.order, 1, &[TOO[1].1, TOO[2].1, TOO[3].1, TOO[6].1]),
    (POST.order, 11, &[TOO[2].1, TOO[3].1, TOO[6].1]),
    (POST.order, 2, &[TOO[3].1, TOO[6].1]),
    (POST.ends, 1, RECORD_ENDS),
    (POST.ends, 1, &LENT_ENDS),
    (POST.limits, 0, POST_DONE),
    (POST.limits, 2, &[SEND_ADDRESS[0]]),
    (POST.limits, 11, POST_LENGTHS),
    (POST.slot, 0, &SLOT),
    (SEND.summed, 0, SUMMED),
    (SEND.summed, 1, SUMMED),
    (SEND.summed, 2, SUMMED),
    (SEND.summed, 3, SUMMED),
    (SEND.summed, 11, SUMMED),
    (SEND.summed, 12, SUMMED),
    (SHUT.summed, 0, SUMMED),
    (SHUT.summed, 1, SUMMED),
    (SHUT.summed, 3, SUMMED),
    (SHUT.summed, 12, SUMMED),
    (POST.summed, 0, SUMMED),
    (POST.summed, 1, SUMMED),
    (POST.summed, 2, SUMMED),
    (POST.summed, 3, SUMMED),
    (POST.summed, 11, SUMMED),
    (DONE.name, 1, ASKED),
    (DONE.name, 1, HANDED_IN),
    (DONE.name, 1, LENT),
    (DONE.ends, 1, RECORD_ENDS),
    (DONE.ends, 1, &LENT_ENDS),
    (READ.name, 1, ASKED),
    (READ.name, 1, HANDED_IN),
    (READ.name, 1, LENT),
    (READ.ends, 1, RECORD_ENDS),
    (READ.ends, 1, &LENT_ENDS),
];

/// The fields whose bits are counted.
pub const COUNTED: [&str; 29] = [
    "mtx SIZE",
    "mrx SIZE",
    "mtxtail",
    "mrxtail",
    "mtx HEAD",
    "mrx HEAD",
    "mtx POSTED",
    "mrx POSTED",
    "mtxpoke INDEX",
    "mrxpoke INDEX",
    "mtxpoke BYTE",
    "mrxpoke BYTE",
    "mtxlist INDEX",
    "mrxlist INDEX",
    "mtxlist VALUE",
    "mrxlist VALUE",
    "mbuf INDEX",
    "mbuf BYTE",
    "msend LENGTH",
    "msend ADDRESS",
    "msend ADDRESS without BUF",
    "msend COOKIE",
    "msend flags",
    "mshut COOKIE",
    "mshut flags",
    "mshut UNLOADING",
    "mpost LENGTH",
    "mpost ADDRESS",
    "mpost flags",
];

/// Lines that write memory.
pub fn line(line: &Line, seen: &mut Seen) {
    match *line {
        Line::Poke { direction, index, byte } => {
            let place = place(direction);
            seen.bits(["mtxpoke INDEX", "mrxpoke INDEX"][place], 15, index as u64);
            seen.bits(["mtxpoke BYTE", "mrxpoke BYTE"][place], 8, u64::from(byte));
        }
        Line::List { direction, index, value } => {
            let place = place(direction);
            seen.bits(["mtxlist INDEX", "mrxlist INDEX"][place], 10, index as u64);
            seen.bits(["mtxlist VALUE", "mrxlist VALUE"][place], 32, u64::from(value));
        }
        Line::Buffer { index, byte } => {
            seen.bits("mbuf INDEX", 13, index as u64);
            seen.bits("mbuf BYTE", 8, u64::from(byte));
        }
        _ => {}
    }
}

/// A fresh ring asked for, and the record that stood there.
pub fn fresh(direction: Direction, size: u64, before: &Ring, answer: u8, seen: &mut Seen) {
    let call = &FRESH[place(direction)];
    if answer == 0 {
        seen.bits(["mtx SIZE", "mrx SIZE"][place(direction)], 10, size);
    }
    if before.shut {
        seen.answer(call.shut, answer, WAS[0]);
    }
    if size == MOST_SIZE + 1 {
        seen.answer(call.ends, 1, RECORD_ENDS[0]);
    }
}

/// The tail's value, or its register.
pub fn looked(calls: &[Call; 2], direction: Direction, record: &Ring, seen: &mut Seen) {
    let call = &calls[place(direction)];
    record_ends(call, record, seen);
    match record.tail_value() {
        Ok(_) if record.shut => seen.answer(call.shut, 0, WAS[0]),
        _ => {}
    }
}

/// A record with one number one past its end.
fn record_ends(call: &Call, record: &Ring, seen: &mut Seen) {
    let Ring { size, head, posted, .. } = *record;
    let right = |record: Ring| record.judge().is_ok();
    for (clause, met) in RECORD_ENDS.iter().zip([
        size == MOST_SIZE + 1 && right(Ring { size: MOST_SIZE, ..*record }),
        head == size && right(Ring { head: 0, ..*record }),
        posted == size && right(Ring { posted: 0, ..*record }),
    ]) {
        if met {
            seen.answer(call.ends, 1, clause);
        }
    }
}

/// A ring as a call finds it, with its checks.
pub struct Scene<'a> {
    pub direction: Direction,
    pub record: Ring,
    pub ring: &'a [u8],
    pub list: &'a [u32],
    pub checks: &'a Checks,
}

impl Scene<'_> {
    /// The first check that is broken.
    pub fn refusal(&self) -> Option<Refusal> {
        self.checks.iter().find_map(|check: &Judged<()>| check.err())
    }

    /// Which causes came together, and what is one off in a record or a lent length.
    pub fn refused(&self, call: &Call, seen: &mut Seen) {
        let Some(first) = self.refusal() else { return };
        let answers: Vec<u8> =
            self.checks.iter().filter_map(|check| check.err()).map(|no| no.answer).collect();
        for (answer, clause) in TOO {
            if answer != first.answer && answers.contains(&answer) {
                seen.answer(call.order, first.answer, clause);
            }
        }
        if answers.len() == 1 {
            seen.answer(call.order, first.answer, TOO[6].1);
        }
        record_ends(call, &self.record, seen);
        if self.record.judge().is_ok() {
            self.lent_ends(call, seen);
        }
    }

    fn lent_ends(&self, call: &Call, seen: &mut Seen) {
        let (ring, list) = (self.ring.len() as u64, self.list.len() as u64);
        let (bytes, size) = (32 * self.record.size, self.record.size);
        for (clause, met) in LENT_ENDS.iter().zip([
            ring + 1 == bytes && list == size,
            ring == bytes + 1 && list == size,
            ring == bytes && list + 1 == size,
            ring == bytes && list == size + 1,
        ]) {
            if met {
                seen.answer(call.ends, 1, clause);
            }
        }
    }

    /// A call that is about to store an element, if its checks let it.
    pub fn storing(&self, call: &Call, element: &Element, seen: &mut Seen) {
        self.refused(call, seen);
        match self.refusal() {
            None => {
                self.slot(call, element, seen);
                self.moved(&Ring { posted: self.record.posted + 1, ..self.record }, seen);
            }
            Some(Refusal { answer: 12, .. }) => {
                let kind = match self.record.posted {
                    0 => 0,
                    posted if posted + 1 == self.record.size => 2,
                    _ => 1,
                };
                seen.answer(call.shut, 12, SHUT_WITH[kind]);
            }
            Some(_) => {}
        }
    }

    /// Where an accepted call leaves the ring.
    pub fn moved(&self, after: &Ring, seen: &mut Seen) {
        let place = place(self.direction);
        seen.bits(["mtx HEAD", "mrx HEAD"][place], 10, after.head);
        seen.bits(["mtx POSTED", "mrx POSTED"][place], 10, after.posted);
    }

    fn slot(&self, call: &Call, element: &Element, seen: &mut Seen) {
        let Ring { size, posted, .. } = self.record;
        let slot = self.record.slot(posted);
        let (start, end) = (ELEMENT * slot, ELEMENT * (slot + 1));
        let beside = [start.checked_sub(1), Some(end)].into_iter().flatten();
        for (clause, met) in SLOT.iter().zip([
            size == 2,
            size == MOST_SIZE,
            slot as u64 + 1 == size,
            slot == 0 && posted > 0,
            posted + 2 == size,
            !self.ring[start..end].contains(&0),
            self.list[slot] != element.companion() && self.list[slot] != 0,
            beside.filter_map(|place| self.ring.get(place)).filter(|byte| **byte != 0).count() == 2,
        ]) {
            if met {
                seen.answer(call.slot, 0, clause);
            }
        }
    }
}

/// A length or an address at an end, or one past it; a receive post is a message with BUF here.
pub fn limits(call: &Call, asked: &Message, answer: u8, seen: &mut Seen) {
    let Message { buf, length, address, .. } = *asked;
    let (lent, end) = (asked.lent as u64, u128::from(address) + u128::from(length));
    let (whole, longer) = (1u128 << 64, lent > MOST_LENGTH);
    let some = buf && length > 0;
    let clauses: Vec<(&'static str, bool)> = match answer {
        0 => vec![
            (SEND_DONE[0], some && length == lent),
            (SEND_DONE[1], some && length == MOST_LENGTH && longer),
            (SEND_DONE[2], some && end == whole),
            (SEND_DONE[3], some && address == 1),
            (SEND_DONE[4], !buf && address == 0),
            (SEND_DONE[5], !buf && address == u64::MAX),
            (SEND_DONE[6], buf && length == 0 && address == u64::MAX),
        ],
        2 => vec![
            (SEND_ADDRESS[0], end == whole + 1),
            (SEND_ADDRESS[1], address == 0 && length == 0),
        ],
        11 => vec![
            (SEND_LENGTH[0], buf && length == lent + 1 && length <= MOST_LENGTH),
            (SEND_LENGTH[1], buf && length == MOST_LENGTH + 1 && length <= lent),
            (SEND_LENGTH[2], !buf && length == 1 && length <= lent),
            (SEND_LENGTH[3], length >> 16 > 0 && length & 0xFFFF <= lent.min(MOST_LENGTH)),
        ],
        _ => vec![],
    };
    for (clause, _) in clauses.into_iter().filter(|(_, met)| *met) {
        seen.answer(call.limits, answer, clause);
    }
}

/// The fields of an accepted send.
pub fn sent(message: &Message, seen: &mut Seen) {
    let name = if message.buf { "msend ADDRESS" } else { "msend ADDRESS without BUF" };
    seen.bits(name, 64, message.address);
    seen.bits("msend LENGTH", 13, message.length);
    seen.bits("msend COOKIE", 64, u64::from_le_bytes(message.cookie));
    let free = LB | RD | BUF | SI | EI | FE;
    seen.masked("msend flags", u64::from(free), u64::from(message.element().flags));
}

pub fn shut_down(shutdown: &Shutdown, seen: &mut Seen) {
    seen.bits("mshut COOKIE", 64, u64::from_le_bytes(shutdown.cookie));
    seen.bits("mshut UNLOADING", 1, u64::from(shutdown.unloading));
    let free = SI | EI | FE;
    seen.masked("mshut flags", u64::from(free), u64::from(shutdown.element().flags));
}

pub fn posted(post: &Post, seen: &mut Seen) {
    seen.bits("mpost LENGTH", 13, post.length);
    seen.bits("mpost ADDRESS", 64, post.address);
    let free = LB | SI | EI;
    seen.masked("mpost flags", u64::from(free), u64::from(post.element().flags));
}

/// The sum of a ring right after a call on it, by which a byte that it wrote would show.
pub fn summed(after: Option<(&'static str, u8)>, ring: &[u8], seen: &mut Seen) {
    if let (Some((call, answer)), true) = (after, ring.iter().any(|byte| *byte != 0)) {
        seen.answer(call, answer, SUMMED[0]);
    }
}
