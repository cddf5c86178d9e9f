//! What a random script tries with bursts.

use crate::author::{Author, Random};
use crate::burst::{LENT, MOST_PACKETS, NUMBERS};
use crate::receive::MOST_SLOTS;
use crate::receive_aims::{device_packet, length, mend, post, word1};
use crate::record::{Direction, Record, BUFFER, SIZE};
use crate::script::OUT;

const MOST: u64 = MOST_SLOTS as u64;

/// A limit that is accepted.
fn limit(random: &mut Random) -> u64 {
    match random.below(4) {
        0 => 1,
        1 => MOST_PACKETS,
        _ => random.between(1, MOST_PACKETS),
    }
}

/// A burst that is not refused for its numbers.
pub fn poll(author: &mut Author) {
    let limit = limit(&mut author.random);
    author.say_padded(&format!("burst {limit} {LENT}"));
}

/// A take, or a burst of any limit.
pub fn take_or_poll(author: &mut Author) {
    if author.random.one_in(3) {
        poll(author);
    } else {
        author.say("take");
    }
}

/// A number of the burst's list, mostly one that a burst may write.
pub fn write(author: &mut Author) {
    let random = &mut author.random;
    let index = match random.below(8) {
        0 => random.pick(&[0, 1, LENT - 1, LENT, OUT - 1]),
        1 => random.below(OUT),
        _ => random.below(LENT),
    };
    let value = random.any();
    author.say_padded(&format!("out {index} {value}"));
}

/// Limits and lengths that are refused, one of them or both, whatever the queue holds.
pub fn refused(author: &mut Author) {
    write(author);
    let random = &mut author.random;
    let mut limit = limit(random);
    let mut length = LENT;
    let wrong = random.below(8);
    if wrong < 5 {
        limit = random.pick(&[0, 0, 33, 33, 34, 64, 1 << 32, (1 << 32) + 1, u64::MAX]);
    }
    if wrong > 3 {
        length = random.pick(&[0, 1, 3, 32, 95, 95, 97, 97, 128, 128]);
    }
    if wrong == 7 {
        length = random.below(OUT + 1);
    }
    author.say_padded(&format!("burst {limit} {length}"));
}

/// The slot counts of the packets that are to stand one behind another.
fn slot_counts(random: &mut Random) -> Vec<u64> {
    let (packets, most) = match random.below(16) {
        0 => (random.between(31, 33), 1),
        1 => (random.between(13, 33), 2),
        2 => (1, MOST),
        3 => (0, 1),
        _ => (random.between(1, 8), MOST),
    };
    let all_longest = random.one_in(4) || packets > 30;
    let count = |random: &mut Random| if all_longest { most } else { random.between(1, most) };
    (0..packets).map(|_| count(random)).collect()
}

/// A queue that holds these slots and a packet more; mostly they go across the ring's end.
fn queue_of(random: &mut Random, slots: u64) -> Record {
    let least = ((slots + MOST + 1) / SIZE.step + 1) * SIZE.step;
    let size = match random.below(8) {
        0 => SIZE.upper,
        1 => least + SIZE.step,
        _ => least,
    };
    let head = match random.below(4) {
        0 => 0,
        1 => random.below(size),
        _ => size - 1 - random.below(slots + 1).min(size - 1),
    };
    let limit = match random.below(3) {
        0 => BUFFER.upper,
        _ => BUFFER.step * random.between(8, 127),
    };
    Record { queue: random.below(4), size, head, limit, ..random.counted(slots) }
}

/// Takes and bursts read only word 1 until a packet is complete, so word 0 is left.
pub fn written(author: &mut Author, record: &Record, distance: u64, word1: u64) {
    author.say(format!("rxpoke {} {word1}", 2 * record.slot(distance) + 1));
}

/// Packets by the device's rules, the first at head.
fn packets(author: &mut Author, record: &Record, counts: &[u64]) {
    let mut distance = 0;
    for count in counts {
        for place in 1..=*count {
            let last = place == *count;
            let dummy = place == MOST || last && place > 1 && author.random.one_in(6);
            let bytes = if dummy { 0 } else { length(&mut author.random, record.limit) };
            let word = word1(&mut author.random, bytes, last);
            written(author, record, distance, word);
            distance += 1;
        }
    }
}

/// What stands behind the packets and stops a burst, from `first` slots past head on: some slots
/// without EOP, then one that ends the posted ones (stale), is not written, or is wrong.
/// Returns how many slots are to be posted.
fn stop(author: &mut Author, record: &Record, first: u64) -> u64 {
    let places = author.random.below(MOST);
    for place in 0..places {
        let bytes = length(&mut author.random, record.limit);
        let word = word1(&mut author.random, bytes, false);
        written(author, record, first + place, word);
    }
    let random = &mut author.random;
    let (longest, eop) = ((1 << 14) - 1, random.one_in(2));
    let kind = random.below(8);
    let bytes = match kind {
        0 | 1 => 0,
        2 => record.limit + 1,
        3 => random.between(record.limit + 1, longest),
        _ => random.between(1, record.limit),
    };
    let mut word = word1(random, bytes, eop);
    if kind == 4 {
        word &= !1;
    }
    let stale = kind == 5 || kind == 6;
    let behind = random.below(2).min(record.size - 2 - first - places);
    written(author, record, first + places, word);
    first + places + if stale { 0 } else { 1 + behind }
}

/// Packets that stand ready, something that stops behind them, and bursts over them: each from the
/// first packet again or from where the last one ended.
pub fn ready(author: &mut Author) {
    let counts = slot_counts(&mut author.random);
    let slots = counts.iter().sum();
    let mut record = queue_of(&mut author.random, slots);
    packets(author, &record, &counts);
    record = record.with_posted(stop(author, &record, slots));
    author.rxset(record);
    for _ in 0..author.random.between(1, 6) {
        if author.random.one_in(2) {
            author.rxset(record);
        }
        for _ in 0..author.random.below(3) {
            write(author);
        }
        aimed(author, counts.len() as u64);
    }
    if author.random.one_in(4) {
        author.say("rxsum");
    }
    mend(author);
}

/// A burst of a limit about as many packets as stand there. Before it the number past the last one
/// that it may write, so that a burst that writes on shows.
fn aimed(author: &mut Author, packets: u64) {
    let random = &mut author.random;
    let limit = match random.below(6) {
        0 => packets.max(1),
        1 => packets + 1,
        2 => packets.max(2) - 1,
        3 => limit(random),
        _ => MOST_PACKETS,
    };
    if random.one_in(2) {
        let value = random.any();
        let index = (NUMBERS * limit.min(packets)).min(OUT - 1);
        author.say(format!("out {index} {value}"));
    }
    author.say_padded(&format!("burst {limit} {LENT}"));
}

/// 31 packets of six slots and a last one whose sixth slot is wrong, not written or its end: a
/// burst that examines as many slots as it can, and bursts over fewer of these packets.
pub fn longest(author: &mut Author) {
    let counts = vec![MOST; MOST_PACKETS as usize];
    let slots = MOST * MOST_PACKETS;
    let record = queue_of(&mut author.random, slots);
    packets(author, &record, &counts);
    for (bytes, flags) in [(0, 1), (0, 2), (1, 3), (0, 3)] {
        let bytes = bytes * length(&mut author.random, record.limit);
        let word = word1(&mut author.random, bytes, true) & !0b11 | flags;
        written(author, &record, slots - 1, word);
        author.rxset(record);
        author.say(format!("burst {MOST_PACKETS} {LENT}"));
        let fewer = author.random.below(MOST_PACKETS);
        author.rxset(record.moved_on(MOST * fewer));
        poll(author);
        author.rxset(record.moved_on(MOST * fewer));
        author.say(format!("burst {MOST_PACKETS} {LENT}"));
    }
    // the last sixth slot is past the posted ones
    let short = record.with_posted(slots - 1);
    let fewer = author.random.between(1, MOST_PACKETS - 2);
    for record in [short, short.moved_on(MOST * fewer)] {
        author.rxset(record);
        author.say(format!("burst {MOST_PACKETS} {LENT}"));
    }
    author.rxset(record);
    author.say(format!("burst {} {LENT}", MOST_PACKETS - 1));
}

/// A driver that polls: buffers are posted, packets come, and a burst takes them.
pub fn traffic(author: &mut Author) {
    if !author.sound(Direction::Receive) {
        return;
    }
    for _ in 0..author.random.between(1, 3) {
        post(author);
        for _ in 0..author.random.between(1, 4) {
            device_packet(author);
        }
        if author.random.one_in(3) {
            write(author);
        }
        poll(author);
    }
}
