//! What a script met where the mailbox is read: each flag and opcode that is wrong alone, parts at
//! the ends of their lengths, slots of the last lap, and each bit of an element.

use crate::cover::Seen;
use crate::mailbox::{Ring, BUF, DD, ELEMENT, LB, MOST_LENGTH, MOST_SIZE};
use crate::mailbox::{QUEUE_SHUTDOWN, WRONG_LENGTH};
use crate::mailbox_cover::{place, Call, Scene, DONE, READ, SEND_LENGTH, TOO};
use crate::mailbox_read::{self, Head, Reading, NOT_ECHOED, NOT_ECHOED_DIRECT, NOT_YET};
use crate::mailbox_read::{SEVERAL, WRONG_COMPLETION, WRONG_MESSAGE};
use crate::record::{Direction, Refusal};

/// What a completion is of, and what a message is, with the part that is handed up.
const COMPLETED: [&str; 6] = [
    "a send in the cookie",
    "a send with BUF, length 0",
    "a send with BUF, length 1 to 4,095",
    "a send with BUF, length 4,096",
    "a shutdown",
    "a shutdown with BUF",
];
const RECEIVED: [&str; 4] =
    ["in the cookie", "BUF, length 0", "BUF, length 1 to 4,095", "BUF, length 4,096"];

pub fn kind(direction: Direction, reading: &Reading) -> &'static str {
    let part = match reading.part.len() as u64 {
        _ if !reading.buf => 0,
        0 => 1,
        MOST_LENGTH => 3,
        _ => 2,
    };
    match direction {
        Direction::Receive => RECEIVED[part],
        Direction::Transmit if reading.opcode != QUEUE_SHUTDOWN => COMPLETED[part],
        Direction::Transmit => COMPLETED[4 + usize::from(reading.buf)],
    }
}

/// A message without BUF, by LB as it came and was posted.
const DIRECT: &str = "mread without BUF";
const LARGE: [[&str; 2]; 2] = [
    ["LB clear, posted clear", "LB clear, posted set"],
    ["LB set, posted clear", "LB set, posted set"],
];
const NO_BUF_POSTED: &str = "BUF posted clear";

/// Names of clauses of both calls, the send ring's first.
const NOT_BELIEVED: [&str; 2] = ["mdone not believed", "mread not believed"];
const OPCODE: [&str; 2] = ["mdone opcode", "mread opcode"];
const GOOD_ONE: [&str; 2] = ["posted 0, a good element there", "all but DD right"];
const EXCHANGED: &[&str] = &["its bytes exchanged"];

/// A part at an end of what its length may be, and the slot that it was read from.
const ENDS: [&str; 3] =
    ["as long as the buffer lent", "4,096 of a longer buffer", "nothing of the buffer lent"];
const TOO_LONG: &[&str] = &[SEND_LENGTH[0], SEND_LENGTH[1], SEND_LENGTH[2]];
const SLOT: [&str; 6] = [
    "of a ring of 2",
    "of a ring of 1,023",
    "the ring's last",
    "now none is posted",
    "all but one were posted",
    "another good element behind it",
];
const OF_SHUT: &[&str] = &["a shutdown was posted"];
const OPEN: &[&str] = &["the shutdown itself", "a send before it"];
const SUMMED: &[&str] = &["bytes not 0"];

/// The flags without those that are not judged of a message without BUF.
const DIRECT_FLAGS: &[&str] = &[
    NOT_ECHOED_DIRECT[1][0],
    NOT_ECHOED_DIRECT[1][1],
    NOT_ECHOED_DIRECT[2][0],
    NOT_ECHOED_DIRECT[2][1],
    NOT_ECHOED_DIRECT[4][0],
    NOT_ECHOED_DIRECT[4][1],
    NOT_ECHOED_DIRECT[5][0],
    NOT_ECHOED_DIRECT[5][1],
    NOT_ECHOED_DIRECT[6][0],
    NOT_ECHOED_DIRECT[6][1],
];

/// Every clause of a reading that can be met, as in the table of the calls.
pub const CAUSES: &[(&str, u8, &[&str])] = &[
    (DONE.name, 0, &COMPLETED),
    (DONE.name, 4, &NOT_YET),
    (DONE.name, 5, &WRONG_COMPLETION),
    (DONE.name, 5, &NOT_ECHOED[0]),
    (DONE.name, 5, &NOT_ECHOED[1]),
    (DONE.name, 5, &NOT_ECHOED[2]),
    (DONE.name, 5, &NOT_ECHOED[3]),
    (DONE.name, 5, &NOT_ECHOED[4]),
    (DONE.name, 5, &NOT_ECHOED[5]),
    (DONE.name, 5, &NOT_ECHOED[6]),
    (DONE.name, 5, &SEVERAL),
    (DONE.name, 11, &WRONG_LENGTH),
    (DONE.order, 1, &[TOO[4].1, TOO[5].1, TOO[1].1, TOO[6].1]),
    (DONE.order, 4, &[TOO[5].1, TOO[1].1, TOO[6].1]),
    (DONE.order, 5, &[TOO[1].1, TOO[6].1]),
    (DONE.limits, 0, &ENDS),
    (DONE.limits, 11, TOO_LONG),
    (DONE.slot, 0, &SLOT),
    (DONE.shut, 0, OPEN),
    (DONE.shut, 4, OF_SHUT),
    (DONE.shut, 5, OF_SHUT),
    (DONE.shut, 11, OF_SHUT),
    (NOT_BELIEVED[0], 4, &GOOD_ONE),
    (OPCODE[0], 5, EXCHANGED),
    (DONE.summed, 0, SUMMED),
    (DONE.summed, 1, SUMMED),
    (DONE.summed, 4, SUMMED),
    (DONE.summed, 5, SUMMED),
    (DONE.summed, 11, SUMMED),
    (READ.name, 0, &RECEIVED),
    (READ.name, 4, &NOT_YET),
    (READ.name, 5, &WRONG_MESSAGE),
    (READ.name, 5, &NOT_ECHOED[0]),
    (READ.name, 5, &NOT_ECHOED[1]),
    (READ.name, 5, &NOT_ECHOED[2]),
    // clear and posted set is a message without BUF
    (READ.name, 5, &[NOT_ECHOED[3][1]]),
    (READ.name, 5, &NOT_ECHOED[4]),
    (READ.name, 5, &NOT_ECHOED[5]),
    (READ.name, 5, &NOT_ECHOED[6]),
    (READ.name, 5, DIRECT_FLAGS),
    (READ.name, 5, &SEVERAL),
    (READ.name, 11, &WRONG_LENGTH),
    (READ.order, 1, &[TOO[4].1, TOO[5].1, TOO[1].1, TOO[6].1]),
    (READ.order, 4, &[TOO[5].1, TOO[1].1, TOO[6].1]),
    (READ.order, 5, &[TOO[1].1, TOO[6].1]),
    (READ.limits, 0, &ENDS),
    (READ.limits, 11, TOO_LONG),
    (READ.slot, 0, &SLOT),
    (DIRECT, 0, &LARGE[0]),
    (DIRECT, 0, &LARGE[1]),
    (DIRECT, 0, &[NO_BUF_POSTED]),
    (NOT_BELIEVED[1], 4, &GOOD_ONE),
    (OPCODE[1], 5, EXCHANGED),
    (READ.summed, 0, SUMMED),
    (READ.summed, 1, SUMMED),
    (READ.summed, 4, SUMMED),
    (READ.summed, 5, SUMMED),
    (READ.summed, 11, SUMMED),
];

/// The fields whose bits are counted, the send ring's first: those of an element that was read, and
/// a bit in which alone an opcode was wrong.
const FLAGS: [&str; 2] = ["mdone flags", "mread flags"];
const VALUE: [&str; 2] = ["mdone VALUE", "mread VALUE"];
const COOKIE: [&str; 2] = ["mdone COOKIE", "mread COOKIE"];
const LENGTH: [&str; 2] = ["mdone LENGTH", "mread LENGTH"];
const PARAMETERS: [&str; 2] = ["mdone parameters", "mread parameters"];
const ADDRESS: [&str; 2] = ["mdone address", "mread address"];
const WRONG_BIT: [&str; 2] = ["mdone wrong opcode bit", "mread wrong opcode bit"];

pub const COUNTED: [&str; 14] = [
    FLAGS[0],
    FLAGS[1],
    VALUE[0],
    VALUE[1],
    COOKIE[0],
    COOKIE[1],
    LENGTH[0],
    LENGTH[1],
    PARAMETERS[0],
    PARAMETERS[1],
    ADDRESS[0],
    ADDRESS[1],
    WRONG_BIT[0],
    WRONG_BIT[1],
];

fn call(direction: Direction) -> &'static Call {
    [&DONE, &READ][place(direction)]
}

impl Scene<'_> {
    /// A reading of the oldest element, with so many bytes of the buffer lent.
    pub fn reading(&self, lent: usize, seen: &mut Seen) {
        let call = call(self.direction);
        self.refused(call, seen);
        let Some(head) = Head::of(&self.record, self.ring, self.list) else { return };
        let answer = self.refusal().map_or(0, |refusal| refusal.answer);
        limits(call, &head, lent as u64, answer, seen);
        self.of_a_shut_ring(call, &head, answer, seen);
        match self.refusal() {
            None => {
                self.moved(&self.record.moved_on(), seen);
                self.read_slot(call, lent, seen);
                fields(self.direction, &head, seen);
                direct(self.direction, &head, seen);
            }
            Some(Refusal { answer: 4, cause }) => self.not_believed(cause, lent, seen),
            Some(Refusal { answer: 5, .. }) => wrong_opcode(self.direction, &head, seen),
            Some(_) => {}
        }
    }

    /// Whether the element at head would be read, had this record.
    fn good(&self, record: &Ring, ring: &[u8], lent: usize) -> bool {
        let checks = mailbox_read::checks(self.direction, record, ring, self.list, lent);
        checks.iter().all(Result::is_ok)
    }

    fn read_slot(&self, call: &Call, lent: usize, seen: &mut Seen) {
        let Ring { size, head, posted, .. } = self.record;
        // as if the slot behind were posted
        let behind = Ring { head: self.record.slot(1) as u64, posted: 1, ..self.record };
        for (clause, met) in SLOT.iter().zip([
            size == 2,
            size == MOST_SIZE,
            head + 1 == size,
            posted == 1,
            posted + 1 == size,
            self.good(&behind, self.ring, lent),
        ]) {
            if met {
                seen.answer(call.slot, 0, clause);
            }
        }
    }

    /// An element that is good but for the cause of the 4.
    fn not_believed(&self, cause: &str, lent: usize, seen: &mut Seen) {
        let mut ring = self.ring.to_vec();
        ring[ELEMENT * self.record.head as usize] |= DD as u8;
        let posted = Ring { posted: self.record.posted.max(1), ..self.record };
        let clause = match cause == NOT_YET[0] {
            true if self.good(&posted, self.ring, lent) => GOOD_ONE[0],
            false if self.good(&posted, &ring, lent) => GOOD_ONE[1],
            _ => return,
        };
        seen.answer(NOT_BELIEVED[place(self.direction)], 4, clause);
    }

    fn of_a_shut_ring(&self, call: &Call, head: &Head, answer: u8, seen: &mut Seen) {
        if !self.record.shut {
            return;
        }
        let send = usize::from(head.element.opcode != QUEUE_SHUTDOWN);
        let clause = if answer == 0 { OPEN[send] } else { OF_SHUT[0] };
        seen.answer(call.shut, answer, clause);
    }
}

/// A length in the element at an end, or one past it.
fn limits(call: &Call, head: &Head, lent: u64, answer: u8, seen: &mut Seen) {
    let (buf, length) = (head.element.has(BUF), u64::from(head.element.length));
    let clauses: Vec<(&'static str, bool)> = match answer {
        0 => vec![
            (ENDS[0], buf && length > 0 && length == lent),
            (ENDS[1], buf && length == MOST_LENGTH && lent > MOST_LENGTH),
            (ENDS[2], lent == 0),
        ],
        11 => vec![
            (SEND_LENGTH[0], buf && length == lent + 1 && length <= MOST_LENGTH),
            (SEND_LENGTH[1], buf && length == MOST_LENGTH + 1 && length <= lent),
            (SEND_LENGTH[2], !buf && length == 1 && length <= lent),
        ],
        _ => vec![],
    };
    for (clause, _) in clauses.into_iter().filter(|(_, met)| *met) {
        seen.answer(call.limits, answer, clause);
    }
}

/// A message that came without BUF.
fn direct(direction: Direction, head: &Head, seen: &mut Seen) {
    if direction == Direction::Transmit || head.element.has(BUF) {
        return;
    }
    let large = |flags: u16| usize::from(flags & LB != 0);
    seen.answer(DIRECT, 0, LARGE[large(head.element.flags)][large(head.posted_flags())]);
    if head.posted_flags() & BUF == 0 {
        seen.answer(DIRECT, 0, NO_BUF_POSTED);
    }
}

/// An opcode that is one bit off, or has its bytes exchanged.
fn wrong_opcode(direction: Direction, head: &Head, seen: &mut Seen) {
    let wanted = match direction {
        Direction::Transmit => head.posted_opcode(),
        Direction::Receive => crate::mailbox::MESSAGE_FROM_PF,
    };
    let differs = head.element.opcode ^ wanted;
    if differs.is_power_of_two() {
        seen.bits(WRONG_BIT[place(direction)], 16, u64::from(differs));
    }
    if differs != 0 && head.element.opcode == wanted.swap_bytes() {
        seen.answer(OPCODE[place(direction)], 5, EXCHANGED[0]);
    }
}

fn fields(direction: Direction, head: &Head, seen: &mut Seen) {
    let (place, element) = (place(direction), head.element);
    // all but DD, which is set
    seen.masked(FLAGS[place], 0xFFFE, u64::from(element.flags));
    seen.bits(VALUE[place], 16, u64::from(element.value));
    seen.bits(COOKIE[place], 64, u64::from_le_bytes(element.cookie));
    let parameters = u64::from(element.param1) << 32 | u64::from(element.param0);
    seen.bits(PARAMETERS[place], 64, parameters);
    seen.bits(ADDRESS[place], 64, element.address);
    if element.has(BUF) {
        seen.bits(LENGTH[place], 13, u64::from(element.length));
    }
}
