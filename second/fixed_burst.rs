//! The burst's part of the fixed script: limits and lengths at their ends, each way to stop at each
//! slot, the most that can be examined, and the list's places.

use crate::author::Author;
use crate::burst::{LENT, MOST_PACKETS, NUMBERS};
use crate::fixed::{BEFORE, DUMMY};
use crate::receive::{DATA_SLOTS, MOST_SLOTS};
use crate::record::Record;
use crate::script::OUT;

const DATA: u64 = DATA_SLOTS as u64;
const MOST: u64 = MOST_SLOTS as u64;

pub fn all(author: &mut Author) {
    the_list(author);
    papers_examples(author);
    limits(author);
    lengths(author);
    stops(author);
    longest(author);
    rounds(author);
    first_slots_and_totals(author);
    laps(author);
}

fn burst(author: &mut Author, limit: u64) {
    author.say(format!("burst {limit} {LENT}"));
}

fn length(bytes: u64) -> u64 {
    bytes << 38
}

/// Word 1 of a slot, by its distance from the record's head.
fn written(author: &mut Author, record: &Record, distance: u64, word1: u64) {
    author.say(format!("rxpoke {} {word1}", 2 * record.slot(distance) + 1));
}

/// A number of the list that no burst writes there.
fn mark(index: u64) -> u64 {
    (index + 1).wrapping_mul(0x9E37_79B9_7F4A_7C15)
}

/// A burst refused with 10 writes nothing and prints the sum: it shows the list.
fn the_list(author: &mut Author) {
    author.say("# burst: the list, each number and each bit");
    author.say("rx 0 32 1024");
    for bit in 0..64 {
        author.say(format!("out {} {}", 2 * bit, 1u64 << bit));
        author.say(format!("out {} {}", 2 * bit + 1, !(1u64 << bit)));
        burst(author, 0);
    }
    for index in 0..OUT {
        author.say(format!("out {index} {}", mark(index)));
    }
    burst(author, 33);
}

fn papers_examples(author: &mut Author) {
    author.say("# burst: limit 33; two packets and then a stale slot");
    let record = Record { queue: 0, size: 32, head: 31, limit: 2048, ..Record::counted(BEFORE, 3) };
    for (distance, word1) in [length(100) | 3, length(2048) | 1, length(52) | 3].iter().enumerate()
    {
        written(author, &record, distance as u64, *word1);
    }
    written(author, &record, 3, length(64) | 3);
    for limit in [33, 32, 3, 2, 1] {
        author.rxset(record);
        burst(author, limit);
        author.say("rxtail");
    }
    author.say("take");
    burst(author, 32);
    burst(author, 1);
    author.say("post 4096");
    burst(author, 32);
    author.say("rxsum");
}

/// Forty packets of one slot. Before each burst the last number that it writes and the one past it
/// are marked.
fn limits(author: &mut Author) {
    author.say("# burst: limits");
    let record =
        Record { queue: 1, size: 64, head: 50, limit: 1024, ..Record::counted(BEFORE, 40) };
    for distance in 0..40 {
        written(author, &record, distance, length(60 + distance) | 3);
    }
    let far = [40, 63, 64, 96, 128, 255, 256, 257, 288, 1 << 32, (1 << 32) + 1, 1 << 63, u64::MAX];
    for limit in (0..=35).chain(far) {
        let past = (NUMBERS * limit.min(MOST_PACKETS)).max(1);
        for index in [past - 1, past] {
            author.say(format!("out {index} {}", mark(limit)));
        }
        author.rxset(record);
        burst(author, limit);
    }
    // the limit leaves eight packets, and the next burst takes them
    author.rxset(record);
    for limit in [32, 5, 32] {
        burst(author, limit);
    }
    author.say("rxsum");
}

/// Each length with limits on both sides: 1 comes before 10.
fn lengths(author: &mut Author) {
    author.say("# burst: lengths of the list, and 1 before 10");
    let record = Record { queue: 1, size: 64, head: 50, limit: 1024, ..Record::counted(BEFORE, 3) };
    let wrong = record.with_posted(64);
    for length in [0, 1, 2, 3, 32, 64, 93, 94, 95, 96, 97, 98, 126, 127, 128] {
        for limit in [0, 1, 32, 33] {
            author.rxset(record);
            author.say(format!("burst {limit} {length}"));
        }
        author.rxset(wrong);
        author.say(format!("burst 0 {length}"));
    }
    for (ring, list) in [(127, 64), (129, 64), (128, 63), (128, 65)] {
        author.rxset_lent(record, ring, list);
        for limit in [0, 32, 33] {
            burst(author, limit);
        }
    }
}

/// After no packet, one, two, 30 and 31: each word at each slot of the next packet, as the first
/// slot past the posted ones, the last posted one, and with others after it.
fn stops(author: &mut Author) {
    author.say("# burst: each way to stop, at each slot, after so many packets");
    let record = Record { queue: 2, size: 64, head: 47, limit: 1024, ..Record::counted(BEFORE, 0) };
    for packets in [0, 1, 2, 30, 31] {
        for distance in 0..packets {
            written(author, &record, distance, length(100 + distance) | 3);
        }
        for place in 0..MOST {
            let at = packets + place;
            for word1 in [
                length(77) | 2,
                length(0) | 1,
                length(0) | 3,
                length(1024) | 1,
                length(1025) | 1,
                length(1025) | 3,
                length(77) | 3,
            ] {
                written(author, &record, at, word1);
                for posted in [at, at + 1] {
                    author.rxset(record.with_posted(posted));
                    burst(author, MOST_PACKETS);
                }
            }
            // goes on to the next place
            written(author, &record, at, length(10 + place) | 1);
        }
    }
    author.say("rxsum");
}

/// 32 packets of six slots, the last one's sixth slot wrong, not written, or its end: over the last
/// 1 to 32 of them, so that each count of packets meets 6 x packets + 6. Where that slot is not
/// posted, it is 6 x packets + 5.
fn longest(author: &mut Author) {
    author.say("# burst: packets of six slots");
    let slots = MOST * MOST_PACKETS;
    let counted = Record::counted(BEFORE, slots);
    let record = Record { queue: 3, size: 224, head: 100, limit: 16_256, ..counted };
    for distance in 0..slots {
        let with_data = distance % MOST < DATA;
        let word1 = if with_data { length(16_256 - 64 * distance) | 1 } else { DUMMY };
        written(author, &record, distance, word1);
    }
    for word1 in [DUMMY, DUMMY & !2, DUMMY & !1, length(16_256) | 3] {
        written(author, &record, slots - 1, word1);
        for behind in 0..MOST_PACKETS {
            author.rxset(record.moved_on(MOST * behind));
            burst(author, MOST_PACKETS);
        }
        author.rxset(record);
        burst(author, MOST_PACKETS - 1);
    }
    for posted in slots - MOST..slots {
        author.rxset(record.with_posted(posted));
        burst(author, MOST_PACKETS);
    }
    for behind in [0, 1, 16, 30, 31] {
        author.rxset(record.with_posted(slots - 1).moved_on(MOST * behind));
        burst(author, MOST_PACKETS);
    }
}

/// Packets of one to six slots in turn, from each head near the ring's end and three others.
fn rounds(author: &mut Author) {
    author.say("# burst: across the ring's end");
    for head in [0, 1, 13, 16, 27, 28, 29, 30, 31] {
        let record =
            Record { queue: 2, size: 32, head, limit: 1024, ..Record::counted(BEFORE, 31) };
        let mut distance = 0;
        for count in (1..=MOST).cycle().take(10) {
            for place in 1..=count {
                let bytes = if place == MOST { 0 } else { head + distance + place };
                let flags = if place == count { 3 } else { 1 };
                written(author, &record, distance, length(bytes) | flags);
                distance += 1;
            }
        }
        for (posted, limit) in [(31, 32), (31, 9), (30, 10), (29, 10), (21, 6), (20, 6)] {
            author.rxset(record.with_posted(posted));
            burst(author, limit);
        }
    }
    author.say("rxsum");
}

/// Each bit of a first slot and of a total.
fn first_slots_and_totals(author: &mut Author) {
    author.say("# burst: each bit of a first slot and of a total");
    for bit in 0..12 {
        for head in [1 << bit, 4095 - (1 << bit)] {
            let counted = Record::counted(BEFORE, 4095 - head);
            let record = Record { queue: 0, size: 4096, head, limit: 16_256, ..counted };
            for place in 0..4 {
                written(author, &record, place, length((1 << bit) + 3000 * place) | 1);
            }
            written(author, &record, 4, length(1 + bit) | 3);
            author.rxset(record);
            burst(author, 1);
        }
    }
    let counted = Record::counted(BEFORE, 4095);
    let record = Record { queue: 0, size: 4096, head: 4095, limit: 16_256, ..counted };
    for place in 0..DATA {
        written(author, &record, place, length(16_256) | 1);
    }
    written(author, &record, DATA, DUMMY);
    author.rxset(record);
    burst(author, 1);
    author.rxset(record.with_posted(MOST));
    burst(author, 2);
}

/// A driver that polls: posts, packets of one to six slots, dummies included, and bursts of each
/// limit in turn, some of them while a packet is unfinished.
fn laps(author: &mut Author) {
    author.say("# burst: laps");
    author.say("rx 3 32 1024");
    for turn in 0..40u64 {
        while author.bench.rx.record.posted < 20 {
            author.say(format!("post {}", 0x1_0000 + 0x800 * turn));
        }
        let record = author.bench.rx.record;
        let mut distance = 0;
        for packet in 0..1 + turn % 4 {
            let count = 1 + (turn + packet) % MOST;
            for place in 1..=count {
                let last = place == count;
                let dummy = place == MOST || last && place > 1 && turn % 3 == 0;
                let bytes = if dummy { 0 } else { 1 + (turn * 37 + place * 211) % 1024 };
                let flags = if last { 3 } else { 1 };
                written(author, &record, distance, length(bytes) | flags);
                distance += 1;
            }
            if packet == 1 && turn % 2 == 0 {
                author.say(format!("out {} {}", 3 * turn % OUT, mark(turn)));
                burst(author, 1 + turn % MOST_PACKETS);
            }
        }
        burst(author, 1 + turn % 3);
        burst(author, MOST_PACKETS);
    }
    author.say("rxsum");
}
