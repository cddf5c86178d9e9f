//! The fixed script's part on reading the mailbox: completions and messages, each flag and opcode
//! that may be wrong, lengths, parts, slots of the last lap, and rings that go round.

use crate::author::Author;
use crate::fixed_mailbox::{everything, lents, message, post, COOKIE};
use crate::mailbox::{Element, Message, Ring, Shutdown, BUF, DD, EI, ERR, FE, LB, RD, SI, VFC};
use crate::mailbox::{MESSAGE_FROM_PF, QUEUE_SHUTDOWN, SEND_TO_PF};
use crate::mailbox_author::{reader, ring_name, BOTH};
use crate::record::Direction::{self, Receive, Transmit};

pub fn all(author: &mut Author) {
    for direction in BOTH {
        flags(author, direction);
        lengths(author, direction);
        bits(author, direction);
    }
    direct_messages(author);
    completion_opcodes(author);
    message_opcodes(author);
    both_wrong(author);
    orders(author);
    stale(author);
    laps(author);
    largest(author);
    everything(author);
}

/// What a device leaves of an element that was posted with these flags and this opcode.
#[derive(Clone, Copy)]
struct Written {
    direction: Direction,
    element: Element,
    flags: u16,
    opcode: u16,
}

impl Written {
    /// The device echoes these flags, sets DD, and of a message writes the opcode.
    fn echoed(direction: Direction, flags: u16) -> Written {
        let (opcode, posted) = match direction {
            Transmit => (SEND_TO_PF, SEND_TO_PF),
            Receive => (MESSAGE_FROM_PF, 0),
        };
        let cookie = COOKIE.to_le_bytes();
        let element = Element { flags: flags | DD, opcode, cookie, ..Element::default() };
        Written { direction, element, flags, opcode: posted }
    }

    fn of_length(mut self, length: u16) -> Written {
        self.element.length = length;
        self
    }

    fn with_flags(mut self, flags: u16) -> Written {
        self.element.flags = flags;
        self
    }

    fn with_opcodes(mut self, opcode: u16, posted: u16) -> Written {
        self.element.opcode = opcode;
        self.opcode = posted;
        self
    }

    fn companion(&self) -> u32 {
        u32::from(self.opcode) << 16 | u32::from(self.flags)
    }

    /// It stands at head, and is read with so many bytes lent.
    fn read(&self, author: &mut Author, record: Ring, lent: usize) {
        author.mail_write(self.direction, record.head as usize, &self.element.bytes());
        author.mail_keep(self.direction, record.head as usize, self.companion());
        author.mail_reset(self.direction, record, record.size);
        author.say(format!("{} {lent}", reader(self.direction)));
    }
}

/// A ring of 3 with its head at this slot.
fn three(head: u64) -> Ring {
    Ring { size: 3, head, posted: 2, shut: false }
}

/// Flags as a driver posts them, and as only a damaged list has them.
const POSTED: [u16; 8] = [
    0,
    BUF,
    BUF | RD,
    BUF | RD | LB | SI | EI | FE,
    BUF | LB,
    BUF | SI,
    SI | EI | FE,
    LB | RD | VFC | BUF | SI | EI | FE,
];

/// Each of the 16 flag bits the other way round, and none.
fn flags(author: &mut Author, direction: Direction) {
    author.say(format!("# mailbox: each flag of an element, {}", ring_name(direction)));
    for posted in POSTED {
        let length = if posted & BUF == 0 { 0 } else { 513 };
        let echoed = Written::echoed(direction, posted).of_length(length);
        echoed.read(author, three(1), 600);
        for bit in 0..16 {
            let other = echoed.with_flags(echoed.element.flags ^ 1 << bit);
            other.read(author, three(1), 600);
        }
        // every bit that no reading goes by, and ERR
        echoed.with_flags(echoed.element.flags | 0x01FE).read(author, three(1), 600);
        author.say(format!("{}sum", ring_name(direction)));
    }
}

/// Messages without BUF: neither it nor LB is judged, and each other flag is.
fn direct_messages(author: &mut Author) {
    author.say("# mailbox: messages without BUF");
    for posted in POSTED {
        for large in [0, LB] {
            let flags = (posted & !BUF & !LB) | large | DD;
            let direct = Written::echoed(Receive, posted).with_flags(flags);
            direct.read(author, three(0), 0);
            for flag in [RD, VFC, SI, EI, FE] {
                direct.with_flags(flags ^ flag).read(author, three(0), 8192);
            }
            direct.of_length(1).read(author, three(0), 8192);
        }
    }
}

/// Lengths at each end with the buffer lent around them, with BUF and without.
fn lengths(author: &mut Author, direction: Direction) {
    author.say(format!("# mailbox: lengths of an element, {}", ring_name(direction)));
    for flags in [BUF | RD, 0] {
        let numbers = [0, 1, 2, 8, 9, 512, 513, 520, 4095, 4096, 4097, 8192, 8193, 0x8000, 0xFFFF];
        for length in numbers {
            for lent in lents(u64::from(length)) {
                let written = Written::echoed(direction, flags).of_length(length);
                written.read(author, three(2), lent);
            }
        }
        author.say(format!("{}sum", ring_name(direction)));
    }
}

/// Each bit of a cookie and of a return value, set alone and clear alone; what stands in the bytes
/// behind them says nothing, all set or all clear.
fn bits(author: &mut Author, direction: Direction) {
    author.say(format!("# mailbox: each bit of an element, {}", ring_name(direction)));
    for (flags, length, step) in [(0, 0, 1), (BUF, 3, 5)] {
        let written = Written::echoed(direction, flags).of_length(length);
        for bit in (0..64).step_by(step) {
            let (cookie, value) = (1u64 << bit, 1u16 << (bit % 16));
            let mut one = written;
            one.element.cookie = cookie.to_le_bytes();
            one.element.value = value;
            one.read(author, three(0), 4);
        }
        for bit in (0..16).step_by(step) {
            let (cookie, value) = (!(0xFu64 << (4 * bit)), !(1u16 << bit));
            let mut all = written.with_flags(written.element.flags | ERR);
            all.element.cookie = cookie.to_le_bytes();
            all.element.value = value;
            if bit < 8 {
                (all.element.param0, all.element.param1) = (u32::MAX, u32::MAX);
                all.element.address = u64::MAX;
            }
            all.read(author, three(0), 4);
        }
    }
}

/// Opcodes that are commands, that are none, and that are one with their bytes exchanged.
const OPCODES: [u16; 10] = [
    SEND_TO_PF,
    QUEUE_SHUTDOWN,
    MESSAGE_FROM_PF,
    0,
    0x0108,
    0x0300,
    0x0208,
    0x0001,
    0x0800,
    0xFFFF,
];

fn completion_opcodes(author: &mut Author) {
    author.say("# mailbox: opcodes of a completion");
    let written = Written::echoed(Transmit, SI);
    for posted in OPCODES {
        for opcode in OPCODES {
            written.with_opcodes(opcode, posted).read(author, three(0), 0);
        }
    }
    for opcode in [SEND_TO_PF, QUEUE_SHUTDOWN] {
        for bit in 0..16 {
            let other = opcode ^ 1 << bit;
            written.with_opcodes(other, opcode).read(author, three(0), 0);
            written.with_opcodes(opcode, other).read(author, three(0), 0);
            written.with_opcodes(other, other).read(author, three(0), 0);
        }
        // a shutdown's completion with BUF, by a damaged list, is a part of the buffer too
        let part = Written::echoed(Transmit, BUF | RD).of_length(40);
        part.with_opcodes(opcode, opcode).read(author, three(0), 40);
    }
}

fn message_opcodes(author: &mut Author) {
    author.say("# mailbox: opcodes of a message");
    for flags in [BUF, 0] {
        let written = Written::echoed(Receive, flags);
        for opcode in OPCODES {
            for posted in [0, opcode] {
                written.with_opcodes(opcode, posted).read(author, three(0), 0);
            }
        }
        for bit in 0..16 {
            written.with_opcodes(MESSAGE_FROM_PF ^ 1 << bit, 0).read(author, three(0), 0);
            written.with_opcodes(MESSAGE_FROM_PF, 1 << bit).read(author, three(0), 0);
        }
    }
}

/// Two flags that differ, both ways, and a flag beside the opcode.
fn both_wrong(author: &mut Author) {
    author.say("# mailbox: two flags, and a flag beside the opcode");
    for direction in BOTH {
        for posted in [BUF | RD, BUF | LB | SI] {
            let written = Written::echoed(direction, posted).of_length(5);
            let pairs = [LB | RD, RD | VFC, BUF | LB, BUF | SI, SI | EI, EI | FE, LB | FE];
            for pair in pairs {
                let other = written.with_flags(written.element.flags ^ pair);
                other.read(author, three(1), 5);
                other.with_opcodes(QUEUE_SHUTDOWN, 0).read(author, three(1), 5);
            }
            author.say(format!("{}sum", ring_name(direction)));
        }
    }
}

/// Each set of causes at once: a wrong lent length, nothing posted, DD clear, a wrong opcode, a
/// flag not echoed, a wrong length.
fn orders(author: &mut Author) {
    author.say("# mailbox: several causes at once, read");
    for direction in BOTH {
        for number in 0..64u32 {
            let wrong = |bit: u32| number >> bit & 1 == 1;
            let mut written = Written::echoed(direction, BUF).of_length(9);
            written.element.flags ^= if wrong(2) { DD } else { 0 };
            written.element.flags ^= if wrong(4) { FE } else { 0 };
            written.element.opcode ^= if wrong(3) { 0x0200 } else { 0 };
            let lent = if wrong(5) { 8 } else { 9 };
            author.mail_write(direction, 2, &written.element.bytes());
            author.mail_keep(direction, 2, written.companion());
            let posted = if wrong(1) { 0 } else { 1 };
            let list = if wrong(0) { 4 } else { 3 };
            let record = Ring { size: 3, head: 2, posted, shut: wrong(5) };
            author.mail_set_lent(direction, record, 96, list);
            author.say(format!("{} {lent}", reader(direction)));
        }
        author.say(format!("{}sum", ring_name(direction)));
    }
}

/// A good element of the last lap stands in every slot; only posted ones are believed, and a post
/// clears what stood there.
fn stale(author: &mut Author) {
    author.say("# mailbox: slots of the last lap");
    for direction in BOTH {
        let written = Written::echoed(direction, BUF | SI).of_length(7);
        for head in 0..3 {
            for slot in 0..3 {
                author.mail_write(direction, slot, &written.element.bytes());
                author.mail_keep(direction, slot, written.companion());
            }
            author.mail_set(direction, Ring { posted: 0, ..three(head) });
            let read = format!("{} 7", reader(direction));
            author.say(&read);
            posted(author, direction, 7);
            author.say(&read);
            author.mail_set(direction, Ring { posted: 1, ..three(head) });
            echo(author, direction, 6);
            author.say(&read);
            author.say(&read);
        }
    }
}

fn posted(author: &mut Author, direction: Direction, length: u64) {
    match direction {
        Transmit => author.say(message(true, length, 4096).line()),
        Receive => author.say(post(length, 4096).line()),
    }
}

/// The device completes the element at head: DD and CMP, and of a message its opcode and length.
fn echo(author: &mut Author, direction: Direction, length: u16) {
    let head = author.mail_record(direction).head as usize;
    let mut element = author.mail_element(direction, head);
    element.flags |= 3;
    if direction == Receive {
        element.opcode = MESSAGE_FROM_PF;
        element.length = length;
    }
    author.mail_write(direction, head, &element.bytes());
}

/// A driver and a device round small rings, with each kind of send and both kinds of message.
fn laps(author: &mut Author) {
    author.say("# mailbox: laps");
    for size in [2, 3, 5] {
        author.say(format!("mtx {size}"));
        author.say(format!("mrx {size}"));
        for turn in 0..3 * size {
            let buf = turn % 3 > 0;
            let length = if buf { turn * 171 } else { 0 };
            let cookie = (COOKIE.rotate_left(turn as u32)).to_le_bytes();
            author.say(Message { cookie, ..message(buf, length, 4096) }.line());
            author.say(post(1 + turn * 273, 8192).line());
            for direction in BOTH {
                author.say(format!("{}tail", ring_name(direction)));
            }
            if turn % size == 0 {
                continue;
            }
            for direction in BOTH {
                echo(author, direction, (turn * 97) as u16);
                if direction == Receive && turn % 2 == 0 {
                    let head = author.mail_record(direction).head as usize;
                    let mut element = author.mail_element(direction, head);
                    element.flags &= !(BUF | LB);
                    element.length = 0;
                    element.cookie = cookie;
                    author.mail_write(direction, head, &element.bytes());
                }
                author.say(format!("{} 4096", reader(direction)));
            }
        }
        author.say(Shutdown::default().line());
        author.say("mtxsum");
        author.say("mrxsum");
    }
}

/// Rings of 1,023 across their end.
fn largest(author: &mut Author) {
    author.say("# mailbox: rings of 1,023 across their end");
    for direction in BOTH {
        author.mail_set(direction, Ring { size: 1023, head: 1020, ..Ring::default() });
        for turn in 0..6 {
            posted(author, direction, 1 + 100 * turn);
            author.say(format!("{}tail", ring_name(direction)));
        }
        for turn in 0..7 {
            echo(author, direction, 11 * turn);
            author.say(format!("{} 4096", reader(direction)));
        }
        author.say(format!("{}sum", ring_name(direction)));
    }
}
