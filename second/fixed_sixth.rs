//! The fixed script's part on packets of up to six slots: the branch's packet, each word at the
//! fifth and at the sixth place, the ring's end, each kind of packet, each bit of a sixth slot.

use crate::author::Author;
use crate::burst::{LENT, MOST_PACKETS};
use crate::fixed::{BEFORE, DUMMY};
use crate::receive::{DATA_SLOTS, MOST_SLOTS};
use crate::record::Record;

const DATA: u64 = DATA_SLOTS as u64;
const MOST: u64 = MOST_SLOTS as u64;
const BUFFER: u64 = 2048;

pub fn all(author: &mut Author) {
    branch(author);
    deciding(author);
    ring_end(author);
    kinds(author);
    word_bits(author);
}

fn length(bytes: u64) -> u64 {
    bytes << 38
}

/// Word 1 of a full buffer of a packet that goes on; its type is the place's own.
fn full(place: u64) -> u64 {
    length(BUFFER) | (22 + place) << 30 | 1
}

/// The device writes both words of a slot, by its distance from the record's head.
fn written(author: &mut Author, record: &Record, distance: u64, words: [u64; 2]) {
    author.say(format!("rxpoke {} {}", 2 * record.slot(distance), words[0]));
    word1(author, record, distance, words[1]);
}

/// Word 0 of a slot that is not a packet's last is never read, so it is left.
fn word1(author: &mut Author, record: &Record, distance: u64, word: u64) {
    author.say(format!("rxpoke {} {word}", 2 * record.slot(distance) + 1));
}

fn queue(size: u64, head: u64) -> Record {
    Record { queue: 1, size, head, limit: BUFFER, ..Record::counted(BEFORE, 0) }
}

/// A take and a burst, each of this record.
fn calls(author: &mut Author, record: Record) {
    for call in ["take".to_string(), format!("burst {MOST_PACKETS} {LENT}")] {
        author.rxset(record);
        author.say(call);
    }
}

/// Five full buffers and an empty sixth with EOP, asked for as each slot is written; then a packet
/// behind it. Polled by takes, and then by bursts.
fn branch(author: &mut Author) {
    author.say("# sixth: the branch's packet, five full buffers and an empty sixth with EOP");
    for call in ["take", "burst 32 96"] {
        author.say("rx 0 32 2048");
        let record = author.bench.rx.record;
        for post in 1..=MOST + 2 {
            author.say(format!("post {}", 0x1_0000 * post));
        }
        for place in 0..DATA {
            written(author, &record, place, [7 + place, full(place)]);
            author.say(call);
        }
        // L2TAG1P with the tag 42, L3L4P and type 26
        written(author, &record, DATA, [42 << 16, 26 << 30 | 0b1100 | DUMMY]);
        author.say(call);
        author.say(call);
        written(author, &record, MOST, [0, length(60) | 3]);
        author.say(call);
        author.say("rxtail");
        author.say("rxsum");
    }
}

/// Not written, right or wrong at some place.
const WORDS: [u64; 12] = [
    0,
    0b10,
    (BUFFER + 1) << 38 | 2,
    DUMMY,
    1,
    1 << 38 | 1,
    1 << 38 | 3,
    BUFFER << 38 | 1,
    BUFFER << 38 | 3,
    (BUFFER + 1) << 38 | 1,
    (BUFFER + 1) << 38 | 3,
    16_383 << 38 | 1,
];

/// Each of these words at the fifth place and at the sixth, behind slots with data and no EOP: not
/// posted, as the last posted slot, and with each kind of slot behind it.
fn deciding(author: &mut Author) {
    author.say("# sixth: each word at the fifth and at the sixth place");
    for place in [DATA - 1, DATA] {
        for (turn, word) in (1..).zip(WORDS) {
            let record = queue(32, (turn * 7 + place) % 32);
            for before in 0..place {
                word1(author, &record, before, full(before));
            }
            written(author, &record, place, [turn << 16, word]);
            for posted in [place, place + 1] {
                calls(author, record.with_posted(posted));
            }
            for behind in [DUMMY, length(60) | 3, 0] {
                written(author, &record, place + 1, [0, behind]);
                calls(author, record.with_posted(place + 2));
            }
        }
    }
    author.say("rxsum");
}

/// Packets of six slots at each head near the ring's end, with none posted behind them, with a
/// packet behind them, and with all but one slot posted.
fn ring_end(author: &mut Author) {
    author.say("# sixth: across the ring's end");
    for slot in 0..32u64 {
        author.say(format!("rxlist {slot} {}", 0xB000_0000_0000_0000 + 0x1_0000 * slot));
    }
    for (size, head) in (25..=32).map(|head| (32, head % 32)).chain([(4096, 4093)]) {
        let record = queue(size, head);
        for place in 0..DATA {
            word1(author, &record, place, full(place) - length(place));
        }
        written(author, &record, DATA, [head << 16, 11 << 30 | 0b100 | DUMMY]);
        written(author, &record, MOST, [0, length(60) | 3]);
        for posted in [MOST, MOST + 1, size - 1] {
            calls(author, record.with_posted(posted));
        }
    }
    author.say("rxsum");
}

/// Packets of one to five slots with data, each with a dummy and without, one behind another: by
/// takes, and by bursts that the limit stops, the posted slots' end, or a wrong slot behind them.
fn kinds(author: &mut Author) {
    author.say("# sixth: each kind of packet");
    let mut record = queue(64, 40);
    for with_data in 1..=DATA {
        for dummy in [true, false] {
            for place in 0..with_data {
                let last = u64::from(!dummy && place + 1 == with_data);
                word1(author, &record, record.posted, full(place) - length(place) | last << 1);
                record = record.posted_more(1);
            }
            if dummy {
                word1(author, &record, record.posted, with_data << 30 | DUMMY);
                record = record.posted_more(1);
            }
        }
    }
    word1(author, &record, record.posted, 1);
    for posted in [record.posted, record.posted + 1] {
        author.rxset(record.with_posted(posted));
        for _ in 0..=2 * DATA {
            author.say("take");
        }
        for limit in [2 * DATA, MOST_PACKETS] {
            author.rxset(record.with_posted(posted));
            author.say(format!("burst {limit} {LENT}"));
        }
    }
    author.say("rxsum");
}

/// Each bit of word 0 of a sixth slot set alone, then each bit of both its words clear alone; its
/// address has each bit set once and clear once. Word 0 of the fifth slot is the other way round.
fn word_bits(author: &mut Author) {
    author.say("# sixth: each bit of a sixth slot, set and clear");
    let record = queue(32, 28).with_posted(MOST);
    for place in 0..DATA {
        word1(author, &record, place, full(place));
    }
    let (shown, every) = (1 << 2 | 0b11 << 12 | DUMMY, !length(0x3FFF));
    let address = 0x5A5A_F0F0_3C3C_9669_u64;
    for alone in [true, false] {
        let (address, other) = if alone { (address, u64::MAX) } else { (!address, 0) };
        author.say(format!("rxlist {} {address}", record.slot(DATA)));
        author.say(format!("rxpoke {} {other}", 2 * record.slot(DATA - 1)));
        for bit in 0..64 {
            let one = 1u64 << bit;
            let words = if alone { [one, shown] } else { [!one, every ^ one] };
            written(author, &record, DATA, words);
            author.rxset(record);
            author.say("take");
        }
    }
    author.say("rxsum");
}
