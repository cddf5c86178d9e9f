//! What a random script tries at the fifth and the sixth slot of a packet.

use crate::author::{Author, Random};
use crate::burst::LENT;
use crate::burst_aims::poll;
use crate::receive::DATA_SLOTS;
use crate::receive_aims::{length, mend, word1, written};
use crate::record::{Record, BUFFER};

/// A queue with few slots posted, or all but one; mostly its packet goes across the ring's end.
fn queue(random: &mut Random) -> Record {
    let size = random.pick(&[32, 32, 64, 4096]);
    let posted = random.pick(&[5, 5, 6, 6, 7, 7, 8, size - 1]);
    let head = if random.one_in(4) { random.below(size) } else { size - random.between(1, 6) };
    let limit = BUFFER.step * random.between(8, 127);
    let record = Record { queue: random.below(4), size, head, limit, ..random.counted(posted) };
    if random.one_in(3) {
        return record.with_count_room(0);
    }
    record
}

/// Word 1 of a slot that decides, or of the one behind it: mostly length 0 and EOP.
fn deciding(random: &mut Random, buffer: u64) -> u64 {
    let data = length(random, buffer);
    let (bytes, eop) = match random.below(8) {
        0..=3 => (0, true),
        4 => (0, false),
        5 => (data, true),
        6 => (data, false),
        _ => (buffer + 1, random.one_in(2)),
    };
    let word = word1(random, bytes, eop);
    if random.one_in(4) {
        return word & !1;
    }
    word
}

/// Four or five slots with data and no EOP, then two that are right, wrong or not written, posted
/// or not: a take, and a burst from the same record.
pub fn fifth_and_sixth(author: &mut Author) {
    let record = queue(&mut author.random);
    let full = author.random.one_in(4);
    let before = DATA_SLOTS as u64 - u64::from(author.random.one_in(3));
    for distance in 0..before {
        let bytes = if full { record.limit } else { length(&mut author.random, record.limit) };
        let word = word1(&mut author.random, bytes, false);
        written(author, &record, distance, word);
    }
    for distance in [before, before + 1] {
        let word = deciding(&mut author.random, record.limit);
        written(author, &record, distance, word);
    }
    author.rxset(record);
    author.say("take");
    author.rxset(record);
    if author.random.one_in(2) {
        author.say(format!("burst 1 {LENT}"));
    } else {
        poll(author);
    }
    mend(author);
}
