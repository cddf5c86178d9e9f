//! What a random script tries on the transmit queue.

use crate::author::Author;
use crate::layouts::{self, Place};
use crate::record::{Direction, Record, FRAME, SIZE};
use crate::transmit::{Send, MOST_PIECE};

/// A fresh queue that is accepted; small ones more often, since they go round sooner.
pub fn fresh(author: &mut Author) {
    let random = &mut author.random;
    let size = match random.below(10) {
        0 => SIZE.upper,
        1 => SIZE.step * random.between(1, 128),
        _ => random.pick(&[32, 32, 64, 96]),
    };
    let frame = match random.below(4) {
        0 => FRAME.lower,
        1 => FRAME.upper,
        _ => random.between(FRAME.lower, FRAME.upper),
    };
    let queue = random.below(4);
    author.say_padded(&format!("tx {queue} {size} {frame}"));
}

pub fn refused_fresh(author: &mut Author) {
    let random = &mut author.random;
    let (mut queue, mut size, mut frame) = (random.below(4), 64, 1518);
    match random.below(4) {
        0 => queue = random.pick(&[4, 5, 1 << 32, u64::MAX]),
        1 => size = random.pick(&[0, 31, 33, 48, 4095, 4097, 4128, 8192, u64::MAX]),
        2 => frame = random.pick(&[0, 1517, 9729, 1 << 32, u64::MAX]),
        _ => {
            queue = random.any();
            size = random.any();
            frame = random.any();
        }
    }
    author.say_padded(&format!("tx {queue} {size} {frame}"));
}

pub fn frame(author: &Author) -> u64 {
    author.bench.tx.record.limit.max(FRAME.lower).min(FRAME.upper)
}

pub fn plain(author: &mut Author) {
    let frame = frame(author);
    for _ in 0..author.random.between(1, 4) {
        let send = layouts::plain(&mut author.random, frame);
        author.say_padded(&layouts::line(&send));
    }
}

pub fn segmented(author: &mut Author) {
    let frame = frame(author);
    let send = layouts::segmented(&mut author.random, frame);
    author.say_padded(&layouts::line(&send));
}

/// A segment that touches 7, 8, 9 or 10 pieces: the first, a middle or the last one.
pub fn crowd(author: &mut Author) {
    let frame = frame(author);
    let target = author.random.pick(&[7, 8, 8, 9, 9, 10]);
    let place = author.random.pick(&[Place::First, Place::Middle, Place::Last]);
    let send = layouts::crowd(&mut author.random, frame, target, place);
    author.say(layouts::line(&send));
}

/// Thousands of pieces, on a queue that has the room or lacks it by one.
pub fn many(author: &mut Author) {
    let random = &mut author.random;
    let count = random.pick(&[4094, 4094, 4094, 4093, 4095, 4062, 4063]);
    let narrow = random.one_in(3);
    let send = layouts::many(random, count, narrow);
    let before = author.bench.tx.record;
    let head = author.random.pick(&[0, 1, 2048, 4095]);
    let posted = author.random.pick(&[0, 0, 0, 1]);
    let size = author.random.pick(&[4096, 4096, 4096, 4064]);
    let queue = author.random.below(4);
    let counted = author.random.counted(posted);
    author.txset(Record { queue, size, head: head % size, limit: 1518, ..counted });
    author.say(layouts::line(&send));
    author.say("txtail");
    author.say("txsum");
    mark_oldest(author);
    author.say("reclaim");
    if before.judge(Direction::Transmit).is_ok() {
        author.txset(before);
    }
}

/// A plain send with one clause of answer 6 broken.
fn wrong_lengths(author: &mut Author) -> Send {
    let frame = frame(author);
    let random = &mut author.random;
    let mut send = layouts::plain(random, frame);
    match random.below(8) {
        0 => send.addresses.push(1),
        1 => {
            send.addresses.pop();
        }
        2 => {
            send.addresses.clear();
            send.lengths.clear();
        }
        3 => {
            let lengths = layouts::cut(random, frame, 9);
            layouts::lay(random, &mut send, lengths);
        }
        4 => empty_piece(&mut send),
        5 => send.lengths[0] = random.pick(&[MOST_PIECE, MOST_PIECE + 1, u64::MAX, 1 << 63]),
        6 => {
            let count = random.between(1, 8);
            let lengths = layouts::cut(random, 16, count);
            send = layouts::offload(random, 0, 0);
            layouts::lay(random, &mut send, lengths);
        }
        _ => {
            let count = random.between(1, 8);
            let lengths = layouts::cut(random, frame + 1, count);
            layouts::lay(random, &mut send, lengths);
        }
    }
    send
}

/// Makes the last piece empty, or adds an empty one; the total stays.
fn empty_piece(send: &mut Send) {
    match send.lengths.as_mut_slice() {
        [first, .., last] => *first += std::mem::take(last),
        _ => {
            send.addresses.push(1);
            send.lengths.push(0);
        }
    }
}

/// A segmented send with one clause of answer 6 broken.
fn wrong_segmented_lengths(author: &mut Author) -> Send {
    let frame = frame(author);
    let random = &mut author.random;
    let mut send = layouts::segmented(random, frame);
    let last = send.lengths.len() - 1;
    match random.below(8) {
        0 => send.tlen += 1,
        1 => send.tlen -= 1,
        2 => send.tlen = u64::MAX - random.below(600),
        3 => send.mac = u64::MAX - random.below(600),
        4 => {
            // the total stays right, unless it is far too large
            let length = random.pick(&[0, MOST_PIECE + 1, u64::MAX]);
            send.tlen = (send.tlen + length.min(MOST_PIECE + 1)).saturating_sub(send.lengths[last]);
            send.lengths[last] = length;
        }
        5 => {
            send.addresses.pop();
        }
        6 => {
            send.addresses.clear();
            send.lengths.clear();
        }
        _ => {
            // the three lengths and TLEN wrap round to the total
            send.mac = send.mac.wrapping_add(1 << 63);
            send.ip_length = send.ip_length.wrapping_add(1 << 63);
        }
    }
    send
}

fn wrong_address(author: &mut Author) -> Send {
    let frame = frame(author);
    let random = &mut author.random;
    let mut send = if random.one_in(2) {
        layouts::plain(random, frame)
    } else {
        layouts::segmented(random, frame)
    };
    let piece = random.below(send.lengths.len() as u64) as usize;
    let length = send.lengths[piece];
    send.addresses[piece] = random.pick(&[0, (u64::MAX - length).wrapping_add(2), u64::MAX]);
    if length == 1 {
        send.addresses[piece] = 0;
    }
    send
}

fn wrong_offload(author: &mut Author) -> Send {
    let frame = frame(author);
    let random = &mut author.random;
    if random.one_in(2) {
        return layouts::spoiled_segmented(random, frame);
    }
    if random.one_in(12) {
        // a header one byte or more above the total
        let ip = random.between(1, 3);
        let mut send = layouts::offload(random, ip, 1);
        let header = send.header() as u64;
        let total = random.between(17, header - 1).max(header - random.between(1, 10));
        let count = random.between(1, 8);
        let lengths = layouts::cut(random, total, count);
        layouts::lay(random, &mut send, lengths);
        return send;
    }
    let mut send = layouts::spoil_plain_offload(random);
    layouts::lay_plain(random, &mut send, frame);
    send
}

/// Refused for a single cause.
pub fn refused(author: &mut Author) {
    let send = match author.random.below(6) {
        0 => wrong_lengths(author),
        1 => wrong_segmented_lengths(author),
        2 => wrong_address(author),
        _ => wrong_offload(author),
    };
    author.say_padded(&layouts::line(&send));
}

/// Several causes at once, so that the order of the checks shows.
pub fn muddled(author: &mut Author) {
    let mut send = match author.random.below(4) {
        0 => wrong_lengths(author),
        1 => wrong_address(author),
        2 => wrong_segmented_lengths(author),
        _ => wrong_offload(author),
    };
    let random = &mut author.random;
    for _ in 0..random.between(1, 3) {
        match random.below(11) {
            0 => send.mac = random.any(),
            1 => send.ip_length = random.any(),
            2 => send.l4_length = random.any(),
            3 => send.tag = random.any(),
            4 => send.mss = random.any(),
            5 => send.tlen = random.any(),
            6 => send.ip = random.below(4),
            7 => send.l4 = random.below(4),
            8 => send.segmented = !send.segmented,
            9 if !send.addresses.is_empty() => send.addresses[0] = random.any(),
            _ if !send.lengths.is_empty() => send.lengths[0] = random.any(),
            _ => send.vlan = !send.vlan,
        }
    }
    author.say_padded(&layouts::line(&send));
}

/// The device marks the oldest packet as done.
pub fn mark_oldest(author: &mut Author) {
    let tx = &author.bench.tx;
    if !author.sound(Direction::Transmit) || tx.record.posted == 0 {
        return;
    }
    let count = u64::from(tx.counts[tx.record.head as usize]);
    let last = tx.record.slot(count.max(1) - 1);
    let word = tx.ring[2 * last + 1] | 15;
    author.say(format!("txpoke {} {word}", 2 * last + 1));
}

/// Reclaims, after the device's marks or without them.
pub fn reclaim(author: &mut Author) {
    for _ in 0..author.random.between(1, 6) {
        if !author.random.one_in(5) {
            mark_oldest(author);
        }
        author.say("reclaim");
    }
}

/// Marks that are not the device's: another nibble, or another slot of the packet.
pub fn wrong_mark(author: &mut Author) {
    let tx = &author.bench.tx;
    if !author.sound(Direction::Transmit) {
        return;
    }
    let count = u64::from(tx.counts[tx.record.head as usize]).max(1);
    let record = tx.record;
    let random = &mut author.random;
    let distance = random.pick(&[count - 1, count - 1, count, count.saturating_sub(2)]);
    let value = random.any() & !15 | random.below(16);
    let slot = record.slot(distance);
    author.say(format!("txpoke {} {value}", 2 * slot + 1));
    author.say("reclaim");
}

/// Companion counts and tokens that no send has written.
pub fn wrong_count(author: &mut Author) {
    if !author.sound(Direction::Transmit) {
        return;
    }
    let record = author.bench.tx.record;
    let before = author.bench.tx.counts[record.head as usize];
    let posted = record.posted;
    let random = &mut author.random;
    let count = random.pick(&[0, 1, posted, posted + 1, record.size, 65_535, 32_768]);
    let token = random.any();
    author.say(format!("txcount {} {count}", record.head));
    author.say(format!("txtoken {} {token}", record.head));
    author.say("reclaim");
    if author.random.one_in(2) {
        mark_oldest(author);
        author.say("reclaim");
    }
    if author.random.one_in(2) {
        author.say(format!("txcount {} {before}", record.head));
    }
}

/// Fills the queue until a send is refused, frees some slots and tries the same send again.
pub fn fill(author: &mut Author) {
    if !author.sound(Direction::Transmit) {
        return;
    }
    let mut record = author.bench.tx.record;
    let random = &mut author.random;
    let send = if random.one_in(2) {
        layouts::plain(random, record.limit)
    } else {
        layouts::segmented(random, record.limit)
    };
    if send.slots() < record.size {
        let free = random.between(0, send.slots() + 2);
        record = record.with_posted((record.size - 1).saturating_sub(free));
        author.txset(record);
        author.say(format!("txcount {} {}", record.head, author.bench.tx.record.posted.min(9)));
    }
    for _ in 0..4 {
        author.say(layouts::line(&send));
        if author.answer() == 3 {
            mark_oldest(author);
            author.say("reclaim");
        }
    }
    author.say("txtail");
}

/// A record handed in with one number at an end, or one past it.
pub fn damaged(author: &mut Author) {
    let size = author.random.pick(&[32, 64, 4064, 4096]);
    let random = &mut author.random;
    let posted = random.pick(&[0, size - 1, size / 2]);
    let mut record = Record {
        queue: random.below(4),
        size,
        head: random.pick(&[0, size - 1, size / 2]),
        limit: random.pick(&[1518, 9728]),
        ..random.counted(posted)
    };
    let mut lent = [2 * size, size, size];
    match random.below(10) {
        0 => record.queue = random.pick(&[4, 5, u64::MAX]),
        1 => record.size = random.pick(&[0, 31, 33, 48, 63, 4095, 4097, 4128, 8160, u64::MAX]),
        2 => record.head = random.pick(&[size, size + 1, u64::MAX]),
        3 => record = record.with_posted(random.pick(&[size, size + 1, u64::MAX])),
        4 => record.limit = random.pick(&[0, 1517, 9729, u64::MAX]),
        5 => lent[0] = random.pick(&[0, 2 * size - 1, 2 * size + 1, size, 16_384]),
        6 => lent[1] = random.pick(&[0, size - 1, size + 1, 8192]),
        7 => lent[2] = random.pick(&[0, size - 1, size + 1, 8192]),
        8 => {
            record = record.with_posted(random.any());
            record.head = random.any();
        }
        _ => {}
    }
    author.txset_lent(record, lent);
    all_calls(author);
}

pub fn all_calls(author: &mut Author) {
    let send = layouts::plain(&mut author.random, 1518);
    author.say("txtail");
    author.say("txreg");
    author.say(layouts::line(&send));
    author.say("reclaim");
    if author.random.one_in(3) {
        author.say("txsum");
    }
    if author.random.one_in(4) {
        refused(author);
    }
    if !author.sound(Direction::Transmit) {
        fresh(author);
    }
}

pub fn look(author: &mut Author) {
    author.say("txtail");
    author.say("txreg");
    author.say("txsum");
}

/// Memory written at random places, within what is lent or past it.
pub fn scribble(author: &mut Author) {
    let random = &mut author.random;
    let (word, bound) = random.pick(&[("txpoke", 16_384), ("txtoken", 8192), ("txcount", 8192)]);
    let index = if random.one_in(8) { bound - 1 } else { random.below(bound) % 256 };
    let value = if word == "txcount" { random.below(65_536) } else { random.any() };
    author.say_padded(&format!("{word} {index} {value}"));
}
