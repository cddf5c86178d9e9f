//! What a random script tries with the mailbox rings. What it tries with elements that the device
//! wrote has a file of its own.

use crate::author::{Author, Random};
use crate::mailbox::{
    Marks, Message, Post, Ring, Shutdown, ELEMENT, LARGE, MOST_LENGTH, MOST_SIZE,
};
use crate::mailbox_author::{reader, ring_name, BOTH};
use crate::mailbox_lines::{BUFFER, LIST, RING};
use crate::record::Direction::{self, Receive, Transmit};

/// A size that is accepted, mostly a small one, since small rings are soon full and go round.
pub fn size(random: &mut Random) -> u64 {
    match random.below(8) {
        0 => MOST_SIZE,
        1 => random.between(1, MOST_SIZE),
        2 => random.pick(&[1, 2]),
        _ => random.between(2, 6),
    }
}

pub fn fresh(author: &mut Author, direction: Direction) {
    let size = size(&mut author.random);
    author.say_padded(&format!("{} {size}", ring_name(direction)));
}

/// A ring that answers no 1, and that is mostly not shut.
pub fn ready(author: &mut Author, direction: Direction) {
    let shut = author.mail_record(direction).shut && !author.random.one_in(8);
    if !author.mail_sound(direction) || shut {
        fresh(author, direction);
    }
}

/// A sum after a call, now and then: it shows what the call wrote.
pub fn maybe_sum(author: &mut Author, direction: Direction) {
    if author.random.one_in(4) {
        author.say(format!("{}sum", ring_name(direction)));
    }
}

/// Fresh rings, right and wrong, on open rings and on shut ones.
pub fn asked(author: &mut Author) {
    let direction = author.random.pick(&BOTH);
    if author.random.one_in(3) {
        return fresh(author, direction);
    }
    if direction == Transmit && author.random.one_in(3) {
        ready(author, direction);
        shut(author);
    }
    let random = &mut author.random;
    let wrong = [0, 0, 0, 1024, 1024, 1024, 1025, 2047, 1 << 16, (1 << 32) + 4, u64::MAX];
    let size = if random.one_in(8) { random.any() } else { random.pick(&wrong) };
    author.say_padded(&format!("{} {size}", ring_name(direction)));
    look_at(author, direction);
}

fn marks(random: &mut Random) -> Marks {
    Marks { si: random.one_in(2), ei: random.one_in(2), fe: random.one_in(2) }
}

pub fn cookie(random: &mut Random) -> [u8; 8] {
    random.any().to_le_bytes()
}

/// A length that is accepted, 0 included, its ends more often.
pub fn length(random: &mut Random) -> u64 {
    match random.below(4) {
        0 => random.pick(&[0, 1, LARGE - 1, LARGE, LARGE + 1, MOST_LENGTH - 1, MOST_LENGTH]),
        1 => 1 << random.below(13),
        2 => random.below(LARGE + 2),
        _ => random.between(0, MOST_LENGTH),
    }
}

/// As many bytes of the buffer as a length asks for, or more.
pub fn lent(random: &mut Random, length: u64) -> usize {
    let more = random.between(length, BUFFER);
    random.pick(&[length, length, (length + 1).min(BUFFER), BUFFER, more]) as usize
}

/// A send that its numbers do not refuse.
fn message(random: &mut Random) -> Message {
    let buf = !random.one_in(3);
    let length = if buf && !random.one_in(6) { length(random) } else { 0 };
    let any = random.any();
    let address = match random.below(6) {
        _ if !buf => random.pick(&[0, u64::MAX, any, any]),
        0..=3 if length == 0 => u64::MAX,
        _ => random.address(length.max(1)),
    };
    let lent = lent(random, length);
    Message { buf, length, address, lent, marks: marks(random), cookie: cookie(random) }
}

fn post(random: &mut Random) -> Post {
    let length = length(random).max(1);
    let address = random.address(length);
    let lent = lent(random, length);
    Post { length, address, lent, si: random.one_in(2), ei: random.one_in(2) }
}

fn shutdown(random: &mut Random) -> Shutdown {
    let unloading = random.one_in(2);
    Shutdown { unloading, marks: marks(random), cookie: cookie(random) }
}

/// A length that is refused, for one cause or more: the length, and what is lent.
fn wrong_length(random: &mut Random, buf: bool) -> (u64, usize) {
    if !buf && random.one_in(2) {
        let length = random.pick(&[1, 1, 8, LARGE]);
        return (length, lent(random, length));
    }
    match random.below(5) {
        0 => (MOST_LENGTH + 1, random.pick(&[BUFFER, MOST_LENGTH, MOST_LENGTH + 1]) as usize),
        1 => {
            let length = length(random).max(1);
            (length, length as usize - 1)
        }
        2 => {
            let low = length(random);
            (low + 65_536 * random.between(1, 9), BUFFER as usize)
        }
        3 => (random.between(1, MOST_LENGTH), 0),
        _ => (random.any().max(MOST_LENGTH + 1), random.pick(&[0, BUFFER]) as usize),
    }
}

/// An address that is refused with this length.
fn wrong_address(random: &mut Random, length: u64) -> u64 {
    match length {
        0 | 1 => 0,
        _ => {
            let first = 0u64.wrapping_sub(length).wrapping_add(1);
            random.pick(&[0, first, first, u64::MAX])
        }
    }
}

/// An element for a ring, by calls that are mostly accepted.
pub fn put(author: &mut Author, direction: Direction) {
    let random = &mut author.random;
    let line = match direction {
        Transmit => message(random).line(),
        Receive => post(random).line(),
    };
    author.say_padded(&line);
    maybe_sum(author, direction);
}

pub fn send(author: &mut Author) {
    let direction = author.random.pick(&BOTH);
    ready(author, direction);
    for _ in 0..author.random.between(1, 5) {
        put(author, direction);
    }
}

/// Calls that are refused for one cause or two, on a ring that is mostly right and has room.
pub fn refused(author: &mut Author) {
    let direction = author.random.pick(&BOTH);
    ready(author, direction);
    for _ in 0..author.random.between(1, 3) {
        let random = &mut author.random;
        let kind = random.below(4);
        let line = match direction {
            Transmit => {
                let mut message = message(random);
                if kind < 2 {
                    (message.length, message.lent) = wrong_length(random, message.buf);
                }
                if kind > 0 {
                    message.address = wrong_address(random, message.length);
                }
                if random.one_in(8) {
                    (message.buf, message.length, message.address) = (true, 0, 0);
                }
                message.line()
            }
            Receive => {
                let mut post = post(random);
                if kind < 2 {
                    (post.length, post.lent) = wrong_length(random, true);
                }
                if random.one_in(6) {
                    post.length = 0;
                }
                if kind > 0 {
                    post.address = wrong_address(random, post.length);
                }
                post.line()
            }
        };
        author.say_padded(&line);
        maybe_sum(author, direction);
    }
}

/// A shutdown, and the sends that come too late.
pub fn shut(author: &mut Author) {
    let line = shutdown(&mut author.random).line();
    author.say_padded(&line);
    maybe_sum(author, Transmit);
    for _ in 0..author.random.below(3) {
        let random = &mut author.random;
        let line = match random.below(3) {
            0 => shutdown(random).line(),
            _ => message(random).line(),
        };
        author.say(line);
        maybe_sum(author, Transmit);
    }
}

/// A shutdown on the ring as it stands, or on any other that is mostly open.
pub fn shutting(author: &mut Author) {
    ready(author, Transmit);
    if author.random.one_in(2) {
        let record = record(&mut author.random, Transmit);
        author.mail_set(Transmit, record);
    }
    shut(author);
    if author.random.one_in(3) {
        look_at(author, Transmit);
    }
}

/// Any record that is accepted.
pub fn record(random: &mut Random, direction: Direction) -> Ring {
    let size = size(random);
    let any = random.below(size);
    let head = random.pick(&[0, size - 1, any]);
    let any = random.below(size);
    let posted = random.pick(&[0, 1, size - 1, size.max(2) - 2, any]).min(size - 1);
    Ring { size, head, posted, shut: direction == Transmit && random.one_in(3) }
}

/// Several causes at once, each of which may be the first: what is lent, shut, the length, the
/// address, a full ring.
pub fn muddled(author: &mut Author) {
    let direction = author.random.pick(&BOTH);
    let random = &mut author.random;
    let mut record = record(random, direction);
    record.posted = random.pick(&[0, record.posted, record.size - 1, record.size - 1]);
    let list = if random.one_in(3) { record.size + 1 } else { record.size };
    author.mail_set_lent(direction, record, 32 * record.size, list);
    let random = &mut author.random;
    let (mut asked, wrong) = (message(random), random.below(4));
    let buf = asked.buf || direction == Receive;
    if wrong & 1 > 0 {
        (asked.length, asked.lent) = wrong_length(random, buf);
    }
    if wrong & 2 > 0 {
        asked.address = wrong_address(random, asked.length);
    }
    let Message { length, address, lent, .. } = asked;
    let line = match direction {
        Transmit if random.one_in(4) => shutdown(random).line(),
        Transmit => asked.line(),
        Receive => Post { length, address, lent, ..Post::default() }.line(),
    };
    author.say(line);
    maybe_sum(author, direction);
}

/// Any slot is written over that has no zero byte, between bytes that are not 0.
pub fn over_old_bytes(author: &mut Author) {
    let direction = author.random.pick(&[Transmit, Transmit, Receive]);
    let size = author.random.between(3, 6);
    let slot = author.random.between(1, size - 2);
    for place in ELEMENT as u64 * slot - 1..=ELEMENT as u64 * (slot + 1) {
        let byte = author.random.between(1, 255);
        author.say(format!("{}poke {place} {byte}", ring_name(direction)));
    }
    let value = author.random.next() as u32;
    author.mail_keep(direction, slot as usize, value);
    let posted = author.random.below(size - 1);
    let head = (slot + size - posted) % size;
    author.mail_set(direction, Ring { size, head, posted, shut: false });
    if direction == Transmit && author.random.one_in(2) {
        let line = shutdown(&mut author.random).line();
        author.say(line);
    } else {
        put(author, direction);
    }
    author.say(format!("{}sum", ring_name(direction)));
}

/// Elements until the ring is full, then once more.
pub fn fill(author: &mut Author) {
    let direction = author.random.pick(&BOTH);
    let random = &mut author.random;
    let size = size(random);
    let posted = (size - 1).saturating_sub(random.below(4));
    let record = Ring { size, head: random.below(size), posted, shut: false };
    author.mail_set(direction, record);
    for _ in posted..size {
        put(author, direction);
        if author.random.one_in(2) {
            author.say(format!("{}tail", ring_name(direction)));
        }
    }
    if direction == Transmit {
        let line = shutdown(&mut author.random).line();
        author.say(line);
        maybe_sum(author, direction);
    }
}

/// A record with one number at an end or one past it, or a lent length that is one off.
pub fn damaged(author: &mut Author) {
    let direction = author.random.pick(&BOTH);
    let random = &mut author.random;
    let mut record = record(random, direction);
    let size = record.size;
    let (mut ring, mut list) = (32 * size, size);
    match random.below(11) {
        0 | 9 => record.size = random.pick(&[0, 0, 1024, 1024, 1025, u64::MAX]),
        1 => record.head = random.pick(&[size, size, size + 1, u64::MAX]),
        2 => record.posted = random.pick(&[size, size, size + 1, u64::MAX]),
        3 | 4 => ring = random.pick(&[ring - 1, ring + 1, ring - 1, ring + 1, 0, RING]),
        5 | 6 => list = random.pick(&[size - 1, size + 1, size - 1, size + 1, 0, LIST]),
        7 => (record.head, record.posted) = (random.any(), random.any()),
        8 => ring = random.below(RING + 1),
        _ => list = random.below(LIST + 1),
    }
    author.mail_set_lent(direction, record, ring, list);
    look_at(author, direction);
    put(author, direction);
    if direction == Transmit {
        let line = shutdown(&mut author.random).line();
        author.say(line);
        maybe_sum(author, direction);
    }
    read(author, direction);
}

/// A reading, with any bytes lent.
pub fn read(author: &mut Author, direction: Direction) {
    let length = length(&mut author.random);
    let lent = lent(&mut author.random, length);
    author.say_padded(&format!("{} {lent}", reader(direction)));
    maybe_sum(author, direction);
}

fn look_at(author: &mut Author, direction: Direction) {
    for call in ["tail", "reg", "sum"] {
        author.say(format!("{}{call}", ring_name(direction)));
    }
}

pub fn look(author: &mut Author) {
    let direction = author.random.pick(&BOTH);
    look_at(author, direction);
}

/// Memory written at random places, within what is lent or past it.
pub fn scribble(author: &mut Author) {
    for _ in 0..author.random.between(1, 4) {
        let random = &mut author.random;
        let name = ring_name(random.pick(&BOTH));
        let (word, held, most) = match random.below(4) {
            0 => (format!("{name}poke"), RING, 255),
            1 => (format!("{name}list"), LIST, u64::from(u32::MAX)),
            _ => ("mbuf".to_string(), BUFFER, 255),
        };
        let (near, far) = (random.below(40), random.below(held));
        let index = random.pick(&[near, far, held - 1]);
        let value = random.next() & most;
        author.say_padded(&format!("{word} {index} {value}"));
    }
}
