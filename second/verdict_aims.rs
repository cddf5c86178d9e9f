//! What a random script tries with verdicts.

use crate::author::{Author, Random};
use crate::burst_aims::written;
use crate::receive_aims::{length, mend};
use crate::record::{Record, BUFFER};

/// The bits of word 1 that a verdict may go by.
pub const L3L4P: u64 = 1 << 3;
pub const IPV6EXADD: u64 = 1 << 15;
pub const INT_UDP_0: u64 = 1 << 18;
pub const IPE: u64 = 1 << 22;
pub const L4E: u64 = 1 << 23;
pub const ALL: [u64; 5] = [L3L4P, INT_UDP_0, IPV6EXADD, L4E, IPE];

/// The types that are known, and some that are not: reserved, to be ignored, at the field's end,
/// and next to a row of the table.
pub const KNOWN: [u64; 14] = [1, 11, 22, 23, 24, 26, 27, 28, 88, 89, 90, 92, 93, 94];
pub const UNKNOWN: [u64; 12] = [0, 12, 25, 91, 255, 2, 10, 13, 21, 29, 87, 95];

/// Those of `ALL` whose place there is a set bit of this number.
pub fn combination(number: u64) -> u64 {
    (0..).zip(ALL).filter(|(place, _)| number >> place & 1 == 1).map(|(_, bit)| bit).sum()
}

/// Word 1 with this type and these of the five bits. The others are clear, set or random, all but
/// the length, DD and EOP.
fn word1(random: &mut Random, packet_type: u64, bits: u64) -> u64 {
    let five: u64 = ALL.into_iter().sum();
    let any = random.next();
    let others = random.pick(&[0, u64::MAX, any]);
    let bytes = length(random, BUFFER.upper);
    let rest = others & !(five | 0xFF << 30 | 0x3FFF << 38);
    rest | bits | packet_type << 30 | bytes << 38 | 0b11
}

/// A queue that has this many slots posted.
fn queue(random: &mut Random, posted: u64) -> Record {
    let size = random.pick(&[32, 64, 4096]);
    let (queue, head) = (random.below(4), random.below(size));
    Record { queue, size, head, limit: BUFFER.upper, ..random.counted(posted) }
}

/// A packet of one slot, this many behind the first one's, is written and taken.
fn taken(author: &mut Author, record: &Record, distance: u64, packet_type: u64, bits: u64) {
    let word = word1(&mut author.random, packet_type, bits);
    written(author, record, distance, word);
    author.say("take");
}

/// One type with each combination of the bits that L4's verdict may go by, from any of them on; IPE
/// is as it comes.
pub fn one_type(author: &mut Author) {
    let random = &mut author.random;
    let packet_type = if random.one_in(8) { random.pick(&UNKNOWN) } else { random.pick(&KNOWN) };
    let (record, first) = (queue(random, 16), random.below(16));
    author.rxset(record);
    for turn in 0..16 {
        let ipe = 16 * author.random.below(2);
        taken(author, &record, turn, packet_type, combination((first + turn) % 16 + ipe));
    }
}

/// Several types with few of the bits, or with nearly all.
pub fn any_type(author: &mut Author) {
    let packets = author.random.between(1, 8);
    let record = queue(&mut author.random, packets);
    author.rxset(record);
    for packet in 0..packets {
        let random = &mut author.random;
        let packet_type = match random.below(8) {
            0 => random.below(256),
            1 => random.pick(&UNKNOWN),
            2 | 3 => random.pick(&UNKNOWN[..5]),
            _ => random.pick(&KNOWN),
        };
        let (one, other) = (random.below(32), random.below(32));
        let bits = if random.one_in(2) { one & other } else { one | other };
        taken(author, &record, packet, packet_type, combination(bits));
    }
}

/// Word 1 that mostly says good or bad.
fn checked(random: &mut Random) -> u64 {
    let packet_type = random.pick(&[22, 24, 24, 26, 27, 28, 90, 92, 93]);
    let errors = random.pick(&[0, IPE, L4E, IPE | L4E]);
    let other = random.pick(&[0, 0, 0, INT_UDP_0, IPV6EXADD]);
    word1(random, packet_type, L3L4P | errors | other)
}

/// Packets of two slots, the first of which mostly says otherwise, and the second is often a dummy;
/// then a slot that is not written, unfinished or wrong, and would say good or bad.
pub fn more_slots(author: &mut Author) {
    let (length, packets) = (0x3FFF << 38, author.random.between(2, 6));
    let record = queue(&mut author.random, 2 * packets + 1);
    author.rxset(record);
    for packet in 0..packets {
        let (first, last) = (checked(&mut author.random), checked(&mut author.random));
        let dummy = !author.random.one_in(3);
        written(author, &record, 2 * packet, first & !0b10);
        written(author, &record, 2 * packet + 1, if dummy { last & !length } else { last });
        author.say("take");
    }
    let word = checked(&mut author.random);
    let word = author.random.pick(&[word & !1, word & !0b10, word & !length, word | length]);
    written(author, &record, 2 * packets, word);
    author.say("take");
    mend(author);
}
