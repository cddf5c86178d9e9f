//! The receive part of the fixed script: each limit at its ends and one past them, each bit.

use crate::author::Author;
use crate::fixed::BEFORE;
use crate::receive::{DATA_SLOTS, MOST_SLOTS};
use crate::record::{Record, BUFFER, SIZE};

/// 2^64 - 1, 2^63 and 2^32 stand for the numbers far past every limit.
const FAR: [u64; 3] = [u64::MAX, 1 << 63, 1 << 32];

pub fn all(author: &mut Author) {
    author.say("# receive: before any queue");
    calls(author, 4096);
    fresh(author);
    damaged_records(author);
    addresses(author);
    full_and_round(author);
    word_bits(author);
    packet_types(author);
    places(author);
    longest_packets(author);
    stale_laps(author);
    laps(author);
}

/// Every receive call once, with what is lent summed after them.
fn calls(author: &mut Author, address: u64) {
    author.say(format!("post {address}"));
    for call in ["take", "burst 32 96", "rxtail", "rxreg", "rxsum"] {
        author.say(call);
    }
}

fn fresh(author: &mut Author) {
    author.say("# receive: fresh queues");
    for queue in [0, 1, 2, 3, 4, 5].iter().chain(&FAR) {
        author.say(format!("rx {queue} 32 1024"));
        author.say("rxreg");
    }
    let steps = (0..=SIZE.upper + 2 * SIZE.step).step_by(SIZE.step as usize);
    for size in steps.chain([31, 33, 48, 63, 65, 4095, 4097]).chain(FAR) {
        author.say(format!("rx 1 {size} 2048"));
        author.say("rxsum");
    }
    let steps = (0..=BUFFER.upper + 2 * BUFFER.step).step_by(BUFFER.step as usize);
    for buffer in steps.chain([1023, 1025, 1088, 16_255, 16_257, 16_383]).chain(FAR) {
        author.say(format!("rx 2 64 {buffer}"));
    }
}

/// Records with one number at its ends and one past them, then lent lengths likewise.
fn damaged_records(author: &mut Author) {
    author.say("# receive: records handed in");
    for size in [32, 64, 4064, 4096] {
        let counted = Record::counted(BEFORE, size / 2);
        let good = Record { queue: 1, size, head: size / 2, limit: 2048, ..counted };
        let mut records = Vec::new();
        for queue in [0, 3, 4, u64::MAX] {
            records.push(Record { queue, ..good });
        }
        for other in [0, 31, 32, 33, 4095, 4096, 4097, 4128, 8192, u64::MAX] {
            records.push(Record { size: other, ..good });
        }
        for number in [0, 1, size - 1, size, size + 1, u64::MAX - size + 1, u64::MAX] {
            records.push(Record { head: number, ..good });
            records.push(good.with_posted(number));
            records.push(Record { head: number, ..good.with_posted(number) });
        }
        for limit in [0, 1023, 1024, 1025, 1088, 16_256, 16_257, 16_384, u64::MAX] {
            records.push(Record { limit, ..good });
        }
        for record in records {
            author.rxset_lent(record, 2 * size, size);
            calls(author, 4096);
        }
        lent_lengths(author, good);
    }
}

fn lent_lengths(author: &mut Author, good: Record) {
    let size = good.size;
    for ring in [0, 1, size, 2 * size - 2, 2 * size - 1, 2 * size + 1, 2 * size + 2, 16_384] {
        author.rxset_lent(good, ring, size);
        calls(author, 4096);
    }
    for list in [0, 1, size - 1, size + 1, 2 * size, 8192] {
        author.rxset_lent(good, 2 * size, list.min(8192));
        calls(author, 4096);
    }
    author.rxset_lent(good, size, 2 * size - size);
    author.say("take");
}

fn addresses(author: &mut Author) {
    author.say("# receive: addresses at both ends, and every bit of one");
    for buffer in [1024u64, 2048, 2176, 16_128, 16_256] {
        author.say(format!("rx 0 4096 {buffer}"));
        let end = 0u64.wrapping_sub(buffer);
        for address in [0, 1, 2, buffer, end - 1, end, end + 1, end + 2, u64::MAX] {
            author.say(format!("post {address}"));
        }
        author.say("rxsum");
    }
    for bit in 0..64 {
        author.say(format!("post {}", 1u64 << bit));
        author.say(format!("post {}", (u64::MAX << 14) & !(1u64 << bit)));
        author.say("rxsum");
    }
}

/// The table's example: 31 posts on size 32, a refusal, a two-slot packet, one more post.
fn full_and_round(author: &mut Author) {
    author.say("# receive: size 32, full, then a two-slot packet");
    author.say("rx 0 32 2048");
    for post in 1..=32u64 {
        author.say(format!("post {}", 0x10000 * post));
        author.say("rxtail");
    }
    // a wrong address is judged before the full queue
    author.say("post 0");
    written(author, 0, 0, length(2048) | 1);
    written(author, 1, 0, length(100) | 3);
    author.say("take");
    author.say("rxtail");
    author.say("post 4096");
    author.say("rxtail");
    author.say("rxsum");
}

fn length(bytes: u64) -> u64 {
    bytes << 38
}

/// The device writes both words of a slot.
fn written(author: &mut Author, slot: u64, word0: u64, word1: u64) {
    author.say(format!("rxpoke {} {word0}", 2 * slot));
    author.say(format!("rxpoke {} {word1}", 2 * slot + 1));
}

/// A queue of 32 at this head with so many posted; each slot's companion address is its own.
fn set(author: &mut Author, head: u64, posted: u64, buffer: u64) {
    let counted = Record::counted(BEFORE, posted);
    author.rxset(Record { queue: 2, size: 32, head, limit: buffer, ..counted });
}

/// Each bit of both words set on a clear write-back, and clear on a full one.
fn word_bits(author: &mut Author) {
    author.say("# receive: each bit of a write-back, set and clear");
    for slot in 0..32u64 {
        author.say(format!("rxlist {slot} {}", 0xA000_0000_0000_0000 + 0x1_0000 * slot));
    }
    let shown = 1 << 2 | 0b11 << 12 | length(64) | 3;
    for bit in 0..64 {
        let one = 1u64 << bit;
        for (word0, word1) in [
            (one, shown),
            (!one, shown),
            (u64::MAX, length(64) | 3 | one),
            (u64::MAX, shown ^ one),
            (0, shown ^ one),
            (u64::MAX, (u64::MAX & !length(0x3FFF) | length(16_256)) ^ one),
        ] {
            set(author, bit % 32, 1 + bit % 31, 16_256);
            written(author, bit % 32, word0, word1);
            author.say("take");
        }
    }
    author.say("rxsum");
}

fn packet_types(author: &mut Author) {
    author.say("# receive: each packet type");
    for packet_type in 0..256u64 {
        set(author, 31, 2, 2048);
        author.say(format!("rxpoke 63 {}", packet_type << 30 | length(60) | 3));
        author.say("take");
    }
}

/// Each length that matters, at each place of a packet, with and without DD and EOP, as the last
/// posted slot and with others after it.
fn places(author: &mut Author) {
    author.say("# receive: lengths at each place of a packet");
    let mut turn = 0;
    for place in 0..MOST_SLOTS as u64 {
        for bytes in [0, 1, 1023, 1024, 1025, 16_383] {
            for flags in 0..4 {
                turn += 1;
                let head = (turn * 7) % 32;
                for before in 0..place {
                    let slot = (head + before) % 32;
                    written(author, slot, turn, length(1 + before * 255) | 1);
                }
                written(author, (head + place) % 32, turn, length(bytes) | flags);
                for posted in [0, place, place + 1, 31] {
                    set(author, head, posted, 1024);
                    author.say("take");
                }
            }
        }
    }
}

/// Five full slots, and totals with each bit set and clear.
fn longest_packets(author: &mut Author) {
    author.say("# receive: five full slots");
    for bytes in [16_256, 16_255, 13_108, 13_107, 8192, 1] {
        for last in [0, 1, 2, 4, 16_256, 16_257] {
            for place in 0..4 {
                written(author, (30 + place) % 32, 0, length(bytes) | 1);
            }
            written(author, 2, 0, length(last) | 3);
            set(author, 30, 5, 16_256);
            author.say("take");
        }
        author.say("rxsum");
    }
}

/// DD of the last lap stands in every slot; only posted slots are believed.
fn stale_laps(author: &mut Author) {
    author.say("# receive: every slot written back in the last lap");
    for slot in 0..32 {
        written(author, slot, u64::MAX, length(60) | 3);
    }
    for head in 0..32 {
        set(author, head, 0, 2048);
        author.say("take");
        author.say(format!("post {}", 4096 * (head + 1)));
        author.say("take");
        written(author, head, 7, length(70 + head) | 3);
        author.say("take");
        author.say("take");
        author.say("rxtail");
    }
    author.say("rxsum");
}

/// Packets of one to six slots round a small ring, dummies included, one post for each slot.
fn laps(author: &mut Author) {
    author.say("# receive: laps");
    author.say("rx 3 32 1024");
    for turn in 0..150u64 {
        let with_data = 1 + turn % DATA_SLOTS as u64;
        let count = with_data + u64::from(turn % 3 == 0);
        for _ in 0..count {
            author.say(format!("post {}", 0x1_0000 + 0x800 * turn));
        }
        let head = author.bench.rx.record.head;
        for place in 0..count {
            author.say("take");
            let dummy = place == with_data;
            let bytes = if dummy { 0 } else { 1 + (turn * 37 + place * 211) % 1024 };
            let flags = if place + 1 == count { 3 } else { 1 };
            let fields = (turn * 0x9E37_79B9) & 0x3F_FC0F_FFFC;
            written(author, (head + place) % 32, turn << 16, fields | length(bytes) | flags);
        }
        author.say("take");
    }
    author.say("rxsum");
}
