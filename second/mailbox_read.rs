//! Reading the mailbox rings (M-105): the oldest completion of the send ring, and the oldest
//! message of the receive ring.

use crate::mailbox::{first_broken, judge_lent, judge_message_length, Checks, Element, Ring};
use crate::mailbox::{BUF, DD, ECHO, ELEMENT, ERR, LB};
use crate::mailbox::{MESSAGE_FROM_PF, QUEUE_SHUTDOWN, SEND_TO_PF};
use crate::record::{refuse, unless_broken, Direction, Judged};

/// Why nothing is to be read.
pub const NOT_YET: [&str; 2] = ["posted 0", "DD clear"];

/// A wrong opcode of a completion, and of a message, where every flag is right.
pub const WRONG_COMPLETION: [&str; 4] = [
    "0x0801, another posted",
    "0x0003, another posted",
    "no command, another posted",
    "no command, as posted",
];
pub const WRONG_MESSAGE: [&str; 4] = ["opcode 0x0801", "opcode 0x0003", "opcode 0", "no opcode"];

/// The one flag of `ECHO` that differs, where the opcode is right: it came clear, or it came set.
pub const NOT_ECHOED: [[&str; 2]; 7] = [
    ["LB clear, posted set", "LB set, posted clear"],
    ["RD clear, posted set", "RD set, posted clear"],
    ["VFC clear, posted set", "VFC set, posted clear"],
    ["BUF clear, posted set", "BUF set, posted clear"],
    ["SI clear, posted set", "SI set, posted clear"],
    ["EI clear, posted set", "EI set, posted clear"],
    ["FE clear, posted set", "FE set, posted clear"],
];
/// Of a message without BUF, of which neither BUF nor LB is judged.
pub const NOT_ECHOED_DIRECT: [[&str; 2]; 7] = [
    ["-", "-"],
    ["without BUF, RD clear, posted set", "without BUF, RD set, posted clear"],
    ["without BUF, VFC clear, posted set", "without BUF, VFC set, posted clear"],
    ["-", "-"],
    ["without BUF, SI clear, posted set", "without BUF, SI set, posted clear"],
    ["without BUF, EI clear, posted set", "without BUF, EI set, posted clear"],
    ["without BUF, FE clear, posted set", "without BUF, FE set, posted clear"],
];
pub const SEVERAL: [&str; 2] = ["several flags differ", "opcode and flags wrong"];

/// The element at head, and what the companion list keeps of the one that was posted there.
#[derive(Clone, Copy, Debug, Default)]
pub struct Head {
    pub element: Element,
    pub companion: u32,
}

impl Head {
    /// `None` where a wrong record or lent length leaves no such slot.
    pub fn of(record: &Ring, ring: &[u8], list: &[u32]) -> Option<Head> {
        let slot = usize::try_from(record.head).ok()?;
        let bytes = ring.get(slot.checked_mul(ELEMENT)?..)?.get(..ELEMENT)?;
        Some(Head { element: Element::read(bytes), companion: *list.get(slot)? })
    }

    pub fn posted_flags(&self) -> u16 {
        self.companion as u16
    }

    pub fn posted_opcode(&self) -> u16 {
        (self.companion >> 16) as u16
    }

    /// Why the opcode is wrong.
    fn opcode(&self, direction: Direction) -> Option<&'static str> {
        let opcode = self.element.opcode;
        let as_posted = opcode == self.posted_opcode();
        match (direction, opcode) {
            (Direction::Transmit, SEND_TO_PF | QUEUE_SHUTDOWN) if as_posted => None,
            (Direction::Transmit, SEND_TO_PF) => Some(WRONG_COMPLETION[0]),
            (Direction::Transmit, QUEUE_SHUTDOWN) => Some(WRONG_COMPLETION[1]),
            (Direction::Transmit, _) if !as_posted => Some(WRONG_COMPLETION[2]),
            (Direction::Transmit, _) => Some(WRONG_COMPLETION[3]),
            (Direction::Receive, MESSAGE_FROM_PF) => None,
            (Direction::Receive, SEND_TO_PF) => Some(WRONG_MESSAGE[0]),
            (Direction::Receive, QUEUE_SHUTDOWN) => Some(WRONG_MESSAGE[1]),
            (Direction::Receive, 0) => Some(WRONG_MESSAGE[2]),
            (Direction::Receive, _) => Some(WRONG_MESSAGE[3]),
        }
    }

    /// Whether this flag must be echoed: a message may come without BUF, and then neither BUF nor
    /// LB is judged.
    pub fn judged(&self, direction: Direction, flag: u16) -> bool {
        let direct_message = direction == Direction::Receive && !self.element.has(BUF);
        !(direct_message && (flag == BUF || flag == LB))
    }

    /// Why the flags are wrong.
    fn flags(&self, direction: Direction) -> Option<&'static str> {
        let differs = |flag: u16| (self.element.flags ^ self.posted_flags()) & flag != 0;
        let wrong = |flag: u16| self.judged(direction, flag) && differs(flag);
        let mut places = (0..ECHO.len()).filter(|place| wrong(ECHO[*place]));
        let place = places.next()?;
        if places.next().is_some() {
            return Some(SEVERAL[0]);
        }
        let came = usize::from(self.element.has(ECHO[place]));
        if self.judged(direction, BUF) {
            return Some(NOT_ECHOED[place][came]);
        }
        Some(NOT_ECHOED_DIRECT[place][came])
    }

    fn judge(&self, direction: Direction) -> Judged<()> {
        match (self.opcode(direction), self.flags(direction)) {
            (None, None) => Ok(()),
            (Some(cause), None) | (None, Some(cause)) => refuse(5, cause),
            (Some(_), Some(_)) => refuse(5, SEVERAL[1]),
        }
    }
}

/// What a reading hands up. The part is of the buffer lent or of the element itself.
#[derive(Clone, Copy, Debug, Default, PartialEq, Eq)]
pub struct Reading<'a> {
    pub opcode: u16,
    pub error: bool,
    pub value: u16,
    pub cookie: [u8; 8],
    pub buf: bool,
    pub part: &'a [u8],
}

/// The checks of a reading in their order, with so many bytes of the buffer lent.
pub fn checks(
    direction: Direction,
    record: &Ring,
    ring: &[u8],
    list: &[u32],
    lent: usize,
) -> Checks {
    let mut checks = vec![judge_lent(record, ring, list)];
    let head = Head::of(record, ring, list);
    checks.push(unless_broken(record.posted == 0, 4, NOT_YET[0]));
    if let Some(head) = head {
        let Element { length, .. } = head.element;
        checks.push(unless_broken(!head.element.has(DD), 4, NOT_YET[1]));
        checks.push(head.judge(direction));
        checks.push(judge_message_length(u64::from(length), lent, head.element.has(BUF)));
    }
    checks
}

/// Of the send ring (Transmit) the oldest completion, of the receive ring the oldest message.
pub fn read<'a>(
    direction: Direction,
    record: Ring,
    ring: &'a [u8],
    list: &[u32],
    buffer: &'a [u8],
) -> Judged<(Ring, Reading<'a>)> {
    first_broken(&checks(direction, &record, ring, list, buffer.len()))?;
    let place = ELEMENT * record.slot(0);
    let element = Element::read(&ring[place..]);
    let buf = element.has(BUF);
    let cookie = &ring[place + 8..place + 16];
    let reading = Reading {
        opcode: element.opcode,
        error: element.has(ERR),
        value: element.value,
        cookie: element.cookie,
        buf,
        part: if buf { &buffer[..usize::from(element.length)] } else { cookie },
    };
    Ok((record.moved_on(), reading))
}
