//! What a random script tries on the receive queue.

use crate::author::{Author, Random};
use crate::burst_aims::{poll, take_or_poll};
use crate::receive::{DATA_SLOTS, MOST_SLOTS};
use crate::record::{Direction, Record, BUFFER, SIZE};
use crate::verdict_aims::{KNOWN, UNKNOWN};

pub fn fresh(author: &mut Author) {
    let random = &mut author.random;
    let size = match random.below(10) {
        0 => SIZE.upper,
        1 => SIZE.step * random.between(1, 128),
        _ => random.pick(&[32, 32, 64, 96]),
    };
    let buffer = match random.below(4) {
        0 => BUFFER.lower,
        1 => BUFFER.upper,
        _ => BUFFER.step * random.between(8, 127),
    };
    let queue = random.below(4);
    author.say_padded(&format!("rx {queue} {size} {buffer}"));
}

pub fn refused_fresh(author: &mut Author) {
    let random = &mut author.random;
    let (mut queue, mut size, mut buffer) = (random.below(4), 64, 2048);
    match random.below(4) {
        0 => queue = random.pick(&[4, 5, 1 << 32, u64::MAX]),
        1 => size = random.pick(&[0, 31, 33, 48, 4095, 4097, 4128, 8192, u64::MAX]),
        2 => buffer = random.pick(&[0, 1023, 1025, 1088, 896, 16_255, 16_257, 16_384, u64::MAX]),
        _ => {
            queue = random.any();
            size = random.any();
            buffer = random.any();
        }
    }
    author.say_padded(&format!("rx {queue} {size} {buffer}"));
}

pub fn post(author: &mut Author) {
    let buffer = author.bench.rx.record.limit.max(1);
    for _ in 0..author.random.between(1, 10) {
        let address = author.random.address(buffer);
        author.say_padded(&format!("post {address}"));
    }
}

/// Posts until the queue is full, then once more.
pub fn fill(author: &mut Author) {
    if !author.sound(Direction::Receive) {
        return;
    }
    let mut record = author.bench.rx.record;
    if record.room() > 12 {
        record = record.with_posted(record.size - 1 - author.random.below(4));
        author.rxset(record);
    }
    for _ in 0..5 {
        let address = author.random.address(record.limit);
        author.say(format!("post {address}"));
    }
    author.say("rxtail");
    refused_post(author);
}

pub fn refused_post(author: &mut Author) {
    let buffer = author.bench.rx.record.limit;
    let past = 0u64.wrapping_sub(buffer).wrapping_add(1);
    let address = author.random.pick(&[0, past, u64::MAX, 0u64.wrapping_sub(buffer)]);
    author.say_padded(&format!("post {address}"));
}

/// A write-back's word 1 with this length; the fields and the reserved bits are random.
pub fn word1(random: &mut Random, length: u64, eop: bool) -> u64 {
    let mut word = match random.below(3) {
        0 => 0,
        _ => random.next(),
    };
    if random.one_in(2) {
        let packet_type =
            if random.one_in(4) { random.pick(&UNKNOWN) } else { random.pick(&KNOWN) };
        word = word & !(0xFF << 30) | packet_type << 30;
    }
    if random.one_in(3) {
        word |= 0b11 << 12;
    }
    word = word & !(0x3FFF << 38) | length << 38;
    word & !0b11 | 1 | u64::from(eop) << 1
}

/// The first posted slot, counted from head, that has no DD; `posted` if all have it.
fn unwritten(author: &Author) -> u64 {
    let rx = &author.bench.rx;
    let clear = |distance: &u64| rx.ring[2 * rx.record.slot(*distance) + 1] & 1 == 0;
    (0..rx.record.posted).find(clear).unwrap_or(rx.record.posted)
}

fn write_back(author: &mut Author, distance: u64, length: u64, eop: bool) {
    let (record, word1) = (author.bench.rx.record, word1(&mut author.random, length, eop));
    written(author, &record, distance, word1);
}

/// The device writes both words of the slot at this distance from the record's head.
pub fn written(author: &mut Author, record: &Record, distance: u64, word1: u64) {
    let (slot, word0) = (record.slot(distance), author.random.next());
    author.say(format!("rxpoke {} {word0}", 2 * slot));
    author.say(format!("rxpoke {} {word1}", 2 * slot + 1));
}

pub fn length(random: &mut Random, buffer: u64) -> u64 {
    match random.below(5) {
        0 => 1,
        1 => buffer,
        2 => buffer - 1,
        3 => 1 << random.below(10),
        _ => random.between(1, buffer),
    }
}

/// The device writes a packet by its rules into the oldest slots not yet written.
pub fn device_packet(author: &mut Author) {
    if !author.sound(Direction::Receive) {
        return;
    }
    let record = author.bench.rx.record;
    let first = unwritten(author);
    // now and then as long as a packet can be
    let longest = author.random.one_in(8);
    let most = DATA_SLOTS as u64;
    let with_data = if longest { most } else { author.random.between(1, most) };
    let count = with_data + u64::from(author.random.one_in(3));
    if first + count > record.posted {
        return;
    }
    for place in 0..count {
        let bytes = match place < with_data {
            true if longest => record.limit,
            true => length(&mut author.random, record.limit),
            false => 0,
        };
        write_back(author, first + place, bytes, place + 1 == count);
        if author.random.one_in(6) {
            // taken while the packet is unfinished
            take_or_poll(author);
        }
    }
}

/// Posts, packets and takes as they come in a working driver.
pub fn traffic(author: &mut Author) {
    for _ in 0..author.random.between(1, 4) {
        post(author);
        device_packet(author);
        if author.random.one_in(2) {
            device_packet(author);
        }
        take_or_poll(author);
        author.say("take");
    }
}

/// A write-back that the device's rules mostly forbid, at any place of a packet or behind it.
pub fn damaged_write_back(author: &mut Author) {
    if !author.sound(Direction::Receive) {
        return;
    }
    let record = author.bench.rx.record;
    let place = author.random.below(MOST_SLOTS as u64 + 1);
    if record.posted <= place {
        post(author);
    }
    for before in 0..place {
        let bytes = length(&mut author.random, record.limit);
        write_back(author, before, bytes, false);
    }
    let random = &mut author.random;
    let longest = (1 << 14) - 1;
    let bytes = random.pick(&[0, 0, 1, record.limit, record.limit + 1, longest]);
    let eop = random.one_in(2);
    write_back(author, place, bytes, eop);
    take_or_poll(author);
    mend(author);
}

/// Clears DD at head, or hands the head on, so that the queue does not stay stuck.
pub fn mend(author: &mut Author) {
    let record = author.bench.rx.record;
    if author.answer() != 5 || !author.sound(Direction::Receive) {
        return;
    }
    if author.random.one_in(2) || record.posted == 0 {
        author.say(format!("rxpoke {} 0", 2 * record.head + 1));
        author.say("take");
    } else {
        author.rxset(record.moved_on(1));
    }
}

/// Write-backs of the last lap with DD set lie past the posted slots; take must not believe them.
pub fn stale(author: &mut Author) {
    if !author.sound(Direction::Receive) {
        return;
    }
    let record = author.bench.rx.record;
    let posted = author.random.below(4).min(record.posted);
    author.rxset(record.with_posted(posted));
    for distance in posted..posted + DATA_SLOTS as u64 {
        let eop = author.random.one_in(2);
        let bytes = length(&mut author.random, record.limit);
        write_back(author, distance, bytes, eop);
    }
    for distance in 0..posted {
        let bytes = length(&mut author.random, record.limit);
        write_back(author, distance, bytes, false);
    }
    take_or_poll(author);
    if author.random.one_in(2) {
        post(author);
        take_or_poll(author);
    }
}

pub fn damaged(author: &mut Author) {
    let random = &mut author.random;
    let size = random.pick(&[32, 64, 4064, 4096]);
    let posted = random.pick(&[0, size - 1, size / 2]);
    let mut record = Record {
        queue: random.below(4),
        size,
        head: random.pick(&[0, size - 1, size / 2]),
        limit: random.pick(&[1024, 2048, 16_256]),
        ..random.counted(posted)
    };
    let (mut ring, mut list) = (2 * size, size);
    match random.below(9) {
        0 => record.queue = random.pick(&[4, 5, u64::MAX]),
        1 => record.size = random.pick(&[0, 31, 33, 48, 63, 4095, 4097, 4128, 8160, u64::MAX]),
        2 => record.head = random.pick(&[size, size + 1, u64::MAX]),
        3 => record = record.with_posted(random.pick(&[size, size + 1, u64::MAX])),
        4 => record.limit = random.pick(&[0, 1023, 1025, 2000, 16_255, 16_257, 16_384, u64::MAX]),
        5 => ring = random.pick(&[0, 2 * size - 1, 2 * size + 1, size, 16_384]),
        6 => list = random.pick(&[0, size - 1, size + 1, 8192]),
        7 => {
            record = record.with_posted(random.any());
            record.head = random.any();
        }
        _ => {}
    }
    author.rxset_lent(record, ring, list);
    all_calls(author);
}

pub fn all_calls(author: &mut Author) {
    let address = author.random.address(1024);
    author.say("rxtail");
    author.say("rxreg");
    author.say(format!("post {address}"));
    author.say("take");
    poll(author);
    if author.random.one_in(3) {
        author.say("rxsum");
    }
    if author.random.one_in(4) {
        refused_post(author);
    }
    if !author.sound(Direction::Receive) {
        fresh(author);
    }
}

pub fn look(author: &mut Author) {
    author.say("rxtail");
    author.say("rxreg");
    author.say("rxsum");
}

pub fn scribble(author: &mut Author) {
    let random = &mut author.random;
    let (word, bound) = random.pick(&[("rxpoke", 16_384), ("rxlist", 8192)]);
    let index = if random.one_in(8) { bound - 1 } else { random.below(bound) % 256 };
    let value = random.any();
    author.say_padded(&format!("{word} {index} {value}"));
    take_or_poll(author);
    mend(author);
}
