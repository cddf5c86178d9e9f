//! The fixed script's part on the mailbox: fresh rings, records handed in, and what sends,
//! shutdowns and receive posts store or refuse. Readings have a file of their own.

use crate::author::Author;
use crate::mailbox::{Marks, Message, Post, Ring, Shutdown, ELEMENT};
use crate::mailbox_author::{reader, ring_name, BOTH};
use crate::mailbox_lines::{BUFFER, LIST, RING};
use crate::record::Direction::{self, Receive, Transmit};

/// Numbers far past every limit, some of which are small once they are cut to fewer bits.
const FAR: [u64; 6] = [1 << 16, (1 << 16) + 2, (1 << 32) + 2, 1 << 63, u64::MAX - 1, u64::MAX];

/// A cookie of eight different bytes.
pub const COOKIE: u64 = 0x8877_6655_4433_2211;

pub fn all(author: &mut Author) {
    author.say("# mailbox: before any ring");
    for direction in BOTH {
        calls(author, direction);
    }
    buffer(author);
    fresh(author);
    for direction in BOTH {
        records(author, direction);
        lent_lengths(author, direction);
    }
    send_lengths(author);
    post_lengths(author);
    addresses(author);
    bits(author);
    marks(author);
    shutdowns(author);
    over_old_bytes(author);
    full(author);
    orders(author);
    everything(author);
}

/// Every call of a ring once, none of which its numbers refuse, and what is lent after them.
fn calls(author: &mut Author, direction: Direction) {
    let name = ring_name(direction);
    author.say(format!("{name}tail"));
    author.say(format!("{name}reg"));
    author.say(format!("{} 64", reader(direction)));
    match direction {
        Transmit => {
            author.say(message(true, 3, 64).line());
            author.say(shutdown().line());
        }
        Receive => author.say(post(3, 64).line()),
    }
    author.say(format!("{name}sum"));
}

pub fn message(buf: bool, length: u64, lent: usize) -> Message {
    let cookie = COOKIE.to_le_bytes();
    Message { buf, length, address: 0x1122_3344_5566_7788, lent, marks: Marks::default(), cookie }
}

fn shutdown() -> Shutdown {
    Shutdown { unloading: true, cookie: COOKIE.to_le_bytes(), ..Shutdown::default() }
}

pub fn post(length: u64, lent: usize) -> Post {
    Post { length, address: 0x99AA_BBCC_DDEE_FF00, lent, ..Post::default() }
}

/// Bytes of the buffer at its start and at both sides of each length that matters.
fn buffer(author: &mut Author) {
    author.say("# mailbox: the buffer");
    for start in [0, 505, 4090, BUFFER - 8] {
        for index in start..(start + 16).min(BUFFER) {
            author.say(format!("mbuf {index} {}", (index * 37 + 11) % 256));
        }
    }
}

fn fresh(author: &mut Author) {
    author.say("# mailbox: fresh rings");
    for direction in BOTH {
        let name = ring_name(direction);
        // numbers of both memories, within what is lent and past it
        for index in [0, 31, 32, 1023, 32_735, 32_736, 32_767] {
            author.say(format!("{name}poke {index} {}", 1 + index % 255));
        }
        for index in [0, 1, 2, 1021, 1022, 1023] {
            author.say(format!("{name}list {index} {}", u32::MAX as u64 - index));
        }
        let sizes = [0, 1, 2, 3, 31, 32, 33, 1021, 1022, 1023, 1024, 1025, 2046, 2047];
        for size in sizes.into_iter().chain(FAR) {
            author.say(format!("{name} {size}"));
            for call in ["tail", "reg", "sum"] {
                author.say(format!("{name}{call}"));
            }
        }
    }
}

/// Records with one number at its ends and one past them, or two.
fn records(author: &mut Author, direction: Direction) {
    let name = ring_name(direction);
    author.say(format!("# mailbox: records handed in, {name}"));
    for size in [1, 2, 1023] {
        let good = Ring { size, head: size / 2, posted: size / 2, shut: false };
        let mut records = Vec::new();
        for other in [0, 1, size - 1, size, size + 1, 1023, 1024, 1 << 16, u64::MAX] {
            records.push(Ring { size: other, ..good });
        }
        for number in [0, 1, size - 1, size, size + 1, u64::MAX - size + 1, u64::MAX] {
            records.push(Ring { head: number, ..good });
            records.push(Ring { posted: number, ..good });
            records.push(Ring { head: number, posted: number, ..good });
        }
        for record in records {
            author.mail_set_lent(direction, record, 32 * size, size);
            calls(author, direction);
        }
    }
}

fn lent_lengths(author: &mut Author, direction: Direction) {
    let name = ring_name(direction);
    author.say(format!("# mailbox: lent lengths, {name}"));
    for size in [1, 3, 1023] {
        let record = Ring { size, head: size - 1, ..Ring::default() };
        let bytes = 32 * size;
        let rings = [0, 1, size, bytes - 32, bytes - 1, bytes + 1, bytes + 32, RING];
        for ring in rings.into_iter().filter(|ring| *ring <= RING && *ring != bytes) {
            author.mail_set_lent(direction, record, ring, size);
            calls(author, direction);
        }
        for list in [0, size - 1, size + 1, 32 * size, LIST] {
            author.mail_set_lent(direction, record, bytes, list.min(LIST));
            calls(author, direction);
        }
    }
}

/// What is lent for a length: nothing, one byte less, as much, one byte more, and the most.
pub fn lents(length: u64) -> Vec<usize> {
    let mut lents: Vec<u64> = vec![0, length.saturating_sub(1), length, length.saturating_add(1)];
    lents.extend([4096, BUFFER]);
    lents.retain(|lent| *lent <= BUFFER);
    lents.sort_unstable();
    lents.dedup();
    lents.into_iter().map(|lent| lent as usize).collect()
}

/// Each end of what a length may be, and numbers that are right once they are cut to 16 bits.
const LENGTHS: [u64; 18] = [
    0,
    1,
    2,
    255,
    256,
    511,
    512,
    513,
    4095,
    4096,
    4097,
    8192,
    8193,
    65_535,
    65_536,
    65_536 + 512,
    (1 << 32) + 1,
    u64::MAX,
];

/// A send ring of 4 slots, the tail going round with the turns.
fn four(author: &mut Author, direction: Direction, turn: u64) {
    let record = Ring { size: 4, head: turn % 4, posted: turn / 4 % 3, shut: false };
    author.mail_set(direction, record);
}

fn send_lengths(author: &mut Author) {
    author.say("# mailbox: lengths of a send");
    let mut turn = 0;
    for buf in [true, false] {
        for length in LENGTHS {
            for lent in lents(length) {
                turn += 1;
                four(author, Transmit, turn);
                author.say(message(buf, length, lent).line());
                author.say("mtxsum");
            }
        }
    }
}

fn post_lengths(author: &mut Author) {
    author.say("# mailbox: lengths of a receive post");
    for (turn, (length, lent)) in (1..).zip(
        LENGTHS
            .into_iter()
            .flat_map(|length| lents(length).into_iter().map(move |lent| (length, lent))),
    ) {
        four(author, Receive, turn);
        author.say(post(length, lent).line());
        author.say("mrxsum");
    }
}

/// Both ends of an address; without BUF each is right, and none is stored.
fn addresses(author: &mut Author) {
    author.say("# mailbox: addresses");
    for length in [0u64, 1, 512, 4096] {
        let end = 0u64.wrapping_sub(length);
        let ends = [end.wrapping_sub(1), end, end.wrapping_add(1)];
        let fixed = [0, 1, 0xFFFF_FFFF, 1 << 32, u64::MAX - 4096, u64::MAX];
        for (turn, address) in (0..).zip(fixed.into_iter().chain(ends)) {
            four(author, Transmit, turn);
            author.say(Message { address, ..message(true, length, 4096) }.line());
            author.say("mtxsum");
            four(author, Transmit, turn);
            author.say(Message { address, ..message(false, 0, 4096) }.line());
            author.say("mtxsum");
            four(author, Receive, turn);
            author.say(Post { address, ..post(length, 4096) }.line());
            author.say("mrxsum");
        }
    }
}

/// Each bit of an address and of a cookie, set alone and clear alone, and each of a length.
fn bits(author: &mut Author) {
    author.say("# mailbox: each bit of an address, a cookie and a length");
    author.say("mtx 150");
    author.say("mrx 150");
    for bit in 0..64 {
        let (one, other) = (1u64 << bit, 1u64 << (63 - bit));
        let length = 1 << (bit % 13);
        let set = Message { address: one, ..message(true, length, 4096) };
        let clear = Message { address: !one & !0xFFF, ..message(true, 4096 - length, 4096) };
        author.say(Message { cookie: other.to_le_bytes(), ..set }.line());
        author.say(Message { cookie: (!other).to_le_bytes(), ..clear }.line());
        author.say("mtxsum");
        author.say(Post { address: one, ..post(length, 4096) }.line());
        author.say(Post { address: !one & !0xFFF, ..post(4097 - length, 4096) }.line());
        author.say("mrxsum");
    }
}

/// Each combination of the flags that a request may ask for, with each that goes by the length.
fn marks(author: &mut Author) {
    author.say("# mailbox: flags of a request");
    author.say("mtx 64");
    author.say("mrx 64");
    for number in 0..8 {
        let asked = |bit: u32| number >> bit & 1 == 1;
        let marks = Marks { si: asked(0), ei: asked(1), fe: asked(2) };
        for (buf, length) in [(false, 0), (true, 0), (true, 1), (true, 512), (true, 513)] {
            author.say(Message { marks, ..message(buf, length, 1024) }.line());
            author.say("mtxsum");
        }
        for length in [1, 512, 513].into_iter().filter(|_| number < 4) {
            author.say(Post { si: asked(0), ei: asked(1), ..post(length, 1024) }.line());
            author.say("mrxsum");
        }
    }
}

fn shutdowns(author: &mut Author) {
    author.say("# mailbox: shutdowns, and what comes after them");
    for number in 0..16 {
        let asked = |bit: u32| number >> bit & 1 == 1;
        let marks = Marks { si: asked(0), ei: asked(1), fe: asked(2) };
        author.say("mtx 4");
        author.say("msend 0 0 0 0 0 0 0 7");
        author.say(Shutdown { unloading: asked(3), marks, ..shutdown() }.line());
        closed(author);
    }
    for byte in 0..8 {
        for cookie in [0xFF << (8 * byte), !(0xFF << (8 * byte)), 1 << (9 * byte)] {
            author.say("mtx 2");
            let cookie = u64::to_le_bytes(cookie);
            author.say(Shutdown { cookie, ..Shutdown::default() }.line());
            author.say("mtxsum");
        }
    }
    // a ring that a refused fresh start leaves is no shut one, nor is a ring that had no room
    for line in ["mtx 4", "mshut 0 0 0 0 0", "mtx 0", "mtxtail", "mtx 2"] {
        author.say(line);
    }
    for line in ["msend 0 0 0 0 0 0 0 7", "mshut 0 0 0 0 0", "mtxpoke 0 1", "mdone 0"] {
        author.say(line);
    }
    author.say("msend 0 0 0 0 0 0 0 8");
}

/// The calls on a shut ring, and its two completions.
fn closed(author: &mut Author) {
    author.say("mtxsum");
    for line in ["msend 0 0 0 0 0 0 0 7", "mshut 0 0 0 0 0", "mtxtail", "mtxreg", "mdone 0"] {
        author.say(line);
    }
    for slot in 0..2 {
        let mut element = author.mail_element(Transmit, slot);
        element.flags |= 3;
        author.mail_write(Transmit, slot, &element.bytes());
        author.say("mdone 0");
        author.say("msend 1 1 1 1 0 0 0 7");
    }
    author.say("mshut 1 0 0 0 0");
    author.say("mtxsum");
}

/// Slots of no zero byte, and what each call leaves of them and of their neighbours.
fn over_old_bytes(author: &mut Author) {
    author.say("# mailbox: over slots of no zero byte");
    let old = |slot: usize| [0xA0 + slot as u8; ELEMENT];
    for direction in BOTH {
        let lines: Vec<String> = match direction {
            Transmit => vec![
                message(false, 0, 0).line(),
                message(true, 0, 0).line(),
                message(true, 700, 700).line(),
                shutdown().line(),
                Shutdown::default().line(),
            ],
            Receive => vec![post(1, 1).line(), post(700, 700).line()],
        };
        for (head, line) in lines.into_iter().enumerate() {
            for slot in 0..4 {
                author.mail_write(direction, slot, &old(slot));
                author.mail_keep(direction, slot, 0x5555_5555 * (slot as u32 + 1) / 2);
            }
            let head = head as u64 % 4;
            author.mail_set(direction, Ring { size: 4, head, posted: 1, shut: false });
            author.say(line);
            author.say(format!("{}sum", ring_name(direction)));
        }
    }
}

/// Rings of 1, 2, 3 and 1,023 to their last slot and one more, from each head that matters.
fn full(author: &mut Author) {
    author.say("# mailbox: full rings");
    for direction in BOTH {
        let name = ring_name(direction);
        for (size, head) in [(1, 0), (2, 0), (2, 1), (3, 2), (1023, 0), (1023, 1), (1023, 1022)] {
            let posted = if size > 3 { size - 3 } else { 0 };
            author.mail_set(direction, Ring { size, head, posted, shut: false });
            for _ in 0..3 {
                match direction {
                    Transmit => author.say(message(true, 9, 9).line()),
                    Receive => author.say(post(9, 9).line()),
                }
                author.say(format!("{name}tail"));
            }
            if direction == Transmit {
                author.say(shutdown().line());
            }
            author.say(format!("{name}sum"));
        }
    }
}

/// Each set of causes at once: a wrong record or lent length, shut, a wrong length, a wrong
/// address, a full ring. Which of two wrong ones it is goes by how many others there are.
fn orders(author: &mut Author) {
    author.say("# mailbox: several causes at once");
    for number in 0..32u64 {
        let wrong = |bit: u32| number >> bit & 1 == 1;
        let odd = number.count_ones() % 2 == 1;
        let posted = if wrong(4) { 2 } else { 1 };
        let head = if wrong(0) && odd { 3 } else { 2 };
        let list = if wrong(0) && !odd { 4 } else { 3 };
        let record = Ring { size: 3, head, posted, shut: wrong(1) };
        let length = if wrong(2) { 4097 } else { 64 };
        let address = if wrong(3) { u64::MAX } else { 4096 };
        author.mail_set_lent(Transmit, record, 96, list);
        author.say(Message { address, ..message(true, length, 8192) }.line());
        author.say("mtxsum");
        author.mail_set_lent(Transmit, record, 96, list);
        author.say(shutdown().line());
        author.say("mtxsum");
        author.mail_set_lent(Receive, record, 96, list);
        let length = if wrong(2) && odd { 0 } else { length };
        author.say(Post { address, ..post(length, 8192) }.line());
        author.say("mrxsum");
    }
}

/// All that is held, lent or not.
pub fn everything(author: &mut Author) {
    for direction in BOTH {
        author.mail_set_lent(direction, Ring::default(), RING, LIST);
        author.say(format!("{}sum", ring_name(direction)));
    }
}
