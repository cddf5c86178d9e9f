//! What a random script tries with elements that the device wrote.

use crate::author::{Author, Random};
use crate::mailbox::{Element, Ring, BUF, DD, ECHO, LB, MESSAGE_FROM_PF, MOST_LENGTH};
use crate::mailbox::{QUEUE_SHUTDOWN, SEND_TO_PF};
use crate::mailbox_aims::{cookie, length, lent, maybe_sum, put, read, ready, record};
use crate::mailbox_author::{reader, BOTH};
use crate::mailbox_lines::BUFFER;
use crate::record::Direction::{self, Receive, Transmit};

/// An element at head as the device left it, what the list keeps of the posted one, and what is
/// lent to the reading.
#[derive(Clone, Copy)]
struct Written {
    direction: Direction,
    element: Element,
    flags: u16,
    opcode: u16,
    posted: u64,
    lent: usize,
    /// Numbers of the list that are lent too many.
    too_many: u64,
}

/// Any flags that are to be echoed; mostly those of a driver.
fn posted_flags(random: &mut Random) -> u16 {
    let any = |random: &mut Random| ECHO.into_iter().filter(|_| random.one_in(2)).sum::<u16>();
    match random.below(3) {
        0 => any(random),
        1 => any(random) | BUF,
        _ => random.pick(&[0, BUF, BUF | LB, 0x1400, 0x1600, 0xE000]),
    }
}

impl Written {
    /// An element that is read; a message comes without BUF now and then.
    fn right(random: &mut Random, direction: Direction, old: Element) -> Written {
        let flags = posted_flags(random);
        let mut came = flags;
        if direction == Receive && random.one_in(3) {
            came = came & !(BUF | LB) | random.pick(&[0, LB]);
        }
        // CMP, ERR, VFE and the reserved flags, which no reading goes by
        let any = random.next() as u16;
        came |= DD | random.pick(&[0, 0x01FE, any & 0x01FE]);
        let buf = came & BUF != 0;
        let length = match random.below(6) {
            _ if !buf => 0,
            0 => MOST_LENGTH,
            1 | 2 if u64::from(old.length) <= MOST_LENGTH => u64::from(old.length),
            _ => length(random),
        };
        let opcode = match direction {
            Transmit => random.pick(&[SEND_TO_PF, SEND_TO_PF, QUEUE_SHUTDOWN]),
            Receive => MESSAGE_FROM_PF,
        };
        let mut element = Element { flags: came, opcode, length: length as u16, ..old };
        if random.one_in(3) {
            element.cookie = cookie(random);
            element.value = random.any() as u16;
        }
        if random.one_in(6) {
            (element.param0, element.param1) = (random.next() as u32, random.next() as u32);
            element.address = random.next();
        }
        let posted = if direction == Transmit { opcode } else { random.pick(&[0, 0, 0, opcode]) };
        let lent = lent(random, length);
        Written { direction, element, flags, opcode: posted, posted: 1, lent, too_many: 0 }
    }

    /// Other flags as they came and were posted, and a length for them: a line a byte is much, so
    /// the rest stays.
    fn again(&self, random: &mut Random) -> Written {
        let other = Written::right(random, self.direction, self.element);
        let Written { flags, opcode, lent, .. } = other;
        let (came, length) = (other.element.flags, other.element.length);
        let element = Element { flags: came, length, opcode: other.element.opcode, ..self.element };
        Written { element, flags, opcode, lent, ..*self }
    }

    /// One thing wrong, or what no reading goes by.
    fn spoil(&mut self, random: &mut Random) {
        match random.below(18) {
            0..=5 => self.element.flags ^= random.pick(&ECHO),
            6 => self.element.flags ^= 1 << random.below(16),
            7 | 8 => self.wrong_opcode(random),
            9 | 10 | 16 => self.element.opcode ^= 1 << random.below(16),
            11 => self.element.flags &= !DD,
            12 | 13 => self.wrong_length(random),
            14 | 17 => self.posted = 0,
            _ => self.too_many = 1,
        }
    }

    fn wrong_opcode(&mut self, random: &mut Random) {
        let known = [SEND_TO_PF, QUEUE_SHUTDOWN, MESSAGE_FROM_PF, 0];
        match random.below(4) {
            0 => self.element.opcode = self.element.opcode.swap_bytes(),
            1 => self.element.opcode = random.pick(&known),
            2 => {
                self.opcode = random.pick(&known);
                self.element.opcode = random.pick(&[self.opcode, self.element.opcode]);
            }
            _ => {
                self.opcode = random.next() as u16;
                self.element.opcode = self.opcode;
            }
        }
    }

    /// Above what is lent, above 4,096, or without BUF.
    fn wrong_length(&mut self, random: &mut Random) {
        let (any, buf) = (random.next() as u16, self.element.has(BUF));
        self.element.length = match random.below(4) {
            0 => self.element.length.max(1),
            1 => any,
            _ if buf => MOST_LENGTH as u16 + 1,
            _ => 1,
        };
        let short = u64::from(self.element.length).saturating_sub(1).min(BUFFER) as usize;
        self.lent = random.pick(&[short, BUFFER as usize]);
    }

    /// It stands at head, and is read.
    fn read(&self, author: &mut Author, record: Ring) {
        let (direction, head) = (self.direction, record.head as usize);
        author.mail_write(direction, head, &self.element.bytes());
        let companion = u32::from(self.opcode) << 16 | u32::from(self.flags);
        author.mail_keep(direction, head, companion);
        let posted = if self.posted == 0 { 0 } else { record.posted.max(1) };
        let list = record.size + self.too_many;
        author.mail_reset(direction, Ring { posted, ..record }, list);
        author.say(format!("{} {}", reader(direction), self.lent));
        maybe_sum(author, direction);
    }
}

/// An element at a ring's head: as it is read, and with one thing wrong or a few.
pub fn written(author: &mut Author) {
    let direction = author.random.pick(&BOTH);
    let mut record = record(&mut author.random, direction);
    if record.size == 1 {
        record.size = 2;
    }
    let old = author.mail_element(direction, record.head as usize);
    let mut right = Written::right(&mut author.random, direction, old);
    right.read(author, record);
    for _ in 0..author.random.between(3, 9) {
        if author.random.one_in(4) {
            right = right.again(&mut author.random);
        }
        let mut wrong = right;
        for _ in 0..author.random.pick(&[1, 1, 1, 2, 3]) {
            wrong.spoil(&mut author.random);
        }
        wrong.read(author, record);
    }
}

/// A ring, and an element at its head that is read; its cookie is what stood there.
fn standing(author: &mut Author) -> (Ring, Written) {
    let direction = author.random.pick(&BOTH);
    let size = author.random.between(2, 4);
    let record = Ring { size, head: author.random.below(size), posted: 1, shut: false };
    let old = author.mail_element(direction, record.head as usize);
    let mut right = Written::right(&mut author.random, direction, old);
    right.element.cookie = old.cookie;
    (record, right)
}

/// Each flag in turn the other way round.
pub fn each_flag(author: &mut Author) {
    let (record, mut right) = standing(author);
    for _ in 0..2 {
        for flag in ECHO {
            let mut wrong = right;
            wrong.element.flags ^= flag;
            wrong.read(author, record);
        }
        right = right.again(&mut author.random);
    }
}

/// Opcodes that are known, and the right one with its bytes exchanged or one bit off.
pub fn each_opcode(author: &mut Author) {
    let (record, right) = standing(author);
    let (known, opcode) = ([SEND_TO_PF, QUEUE_SHUTDOWN, 0], right.element.opcode);
    let mut off = || opcode ^ 1 << author.random.below(16);
    let near = [opcode.swap_bytes(), off(), off()];
    for opcode in known.into_iter().chain(near) {
        let mut wrong = right;
        wrong.element.opcode = opcode;
        wrong.read(author, record);
    }
}

/// Lengths at their ends and one past them, of what is lent and of what may be.
pub fn each_length(author: &mut Author) {
    let (record, right) = standing(author);
    let most = MOST_LENGTH as u16;
    let length = author.random.between(1, MOST_LENGTH) as u16;
    for (length, lent) in [
        (length, length - 1),
        (length, length),
        (1, BUFFER as u16),
        (most, BUFFER as u16),
        (most + 1, BUFFER as u16),
    ] {
        let mut other = right;
        (other.element.length, other.lent) = (length, usize::from(lent));
        other.read(author, record);
    }
}

/// The device completes the oldest elements, as far as they are posted, or writes messages.
fn device(author: &mut Author, direction: Direction, most: u64) {
    let record = author.mail_record(direction);
    for distance in 0..most.min(record.posted) {
        let slot = record.slot(distance);
        let mut element = author.mail_element(direction, slot);
        let random = &mut author.random;
        element.flags |= random.pick(&[DD, DD | 2, DD | 2, DD | 6]);
        if direction == Receive {
            element.opcode = MESSAGE_FROM_PF;
            element.length = random.between(0, u64::from(element.length)) as u16;
            if random.one_in(3) {
                element.flags &= !(BUF | LB);
                element.length = 0;
                element.cookie = cookie(random);
            }
        }
        author.mail_write(direction, slot, &element.bytes());
    }
}

/// A driver and its device: elements are put, completed and read.
pub fn traffic(author: &mut Author) {
    let direction = author.random.pick(&BOTH);
    ready(author, direction);
    for _ in 0..author.random.between(1, 3) {
        for _ in 0..author.random.between(1, 3) {
            put(author, direction);
        }
        let most = author.random.between(1, 3);
        device(author, direction, most);
        for _ in 0..=most {
            if author.random.one_in(4) {
                read(author, direction);
            } else {
                author.say(format!("{} {BUFFER}", reader(direction)));
            }
        }
    }
}

/// Good elements of the last lap stand past the posted ones; posted anew, they are cleared.
pub fn stale(author: &mut Author) {
    let direction = author.random.pick(&BOTH);
    ready(author, direction);
    let record = author.mail_record(direction);
    if record.size < 2 || !author.mail_sound(direction) {
        return;
    }
    author.mail_set(direction, Ring { posted: 1, ..record });
    device(author, direction, 1);
    for posted in [1, 0] {
        author.mail_set(direction, Ring { posted, ..record });
        author.say(format!("{} {BUFFER}", reader(direction)));
        maybe_sum(author, direction);
    }
    author.mail_set(direction, Ring { posted: 0, ..record });
    for _ in 0..2 {
        put(author, direction);
        author.say(format!("{} {BUFFER}", reader(direction)));
    }
}
