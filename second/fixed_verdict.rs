//! The fixed script's part on verdicts: each kind of packet type with each combination of the bits
//! that decide, every type, every other bit, packets of more slots, and takes that are refused.

use crate::author::Author;
use crate::fixed::{BEFORE, DUMMY};
use crate::record::Record;
use crate::verdict_aims::{combination, ALL, INT_UDP_0, IPE, IPV6EXADD, KNOWN, L3L4P, L4E};

const BUFFER: u64 = 16_256;

pub fn all(author: &mut Author) {
    of_the_paper(author);
    combinations(author);
    every_type(author);
    other_bits(author);
    more_slots(author);
    refused(author);
}

/// Word 1 of a last slot of 64 bytes.
fn word(packet_type: u64, bits: u64) -> u64 {
    packet_type << 30 | bits | 64 << 38 | 3
}

/// A queue of 4,096 slots with so many posted.
fn queue(author: &mut Author, posted: u64) -> Record {
    let counted = Record::counted(BEFORE, posted);
    let record = Record { queue: 3, size: 4096, head: 4000, limit: BUFFER, ..counted };
    author.rxset(record);
    record
}

/// Word 1 of a slot, by its distance from the record's head.
fn written(author: &mut Author, record: &Record, distance: u64, word1: u64) {
    author.say(format!("rxpoke {} {word1}", 2 * record.slot(distance) + 1));
}

/// The device writes a packet of one slot at head, and it is taken.
fn taken(author: &mut Author, word1: u64) {
    let record = author.bench.rx.record;
    written(author, &record, 0, word1);
    author.say("take");
}

/// 01's write-back on a fresh queue, and then with each of the five bits the other way round.
fn of_the_paper(author: &mut Author) {
    author.say("# verdicts: 01's write-back, and with one of the five bits changed");
    author.say("rx 0 32 2048");
    for turn in 1..=6 {
        author.say(format!("post {}", 0x1_0000 * turn));
    }
    let example = 0x0000_1006_8000_000B;
    taken(author, example);
    for bit in ALL {
        taken(author, example ^ bit);
    }
}

/// The bits that no verdict goes by, all but DD, EOP and the length.
fn others() -> u64 {
    let five: u64 = ALL.into_iter().sum();
    !(five | 0xFF << 30 | 0x3FFF << 38 | 0b11)
}

/// Of every type that is known, and of unknown ones; then of some with all other bits set.
fn combinations(author: &mut Author) {
    queue(author, 4095);
    for packet_type in KNOWN.into_iter().chain([0, 12, 25, 91, 255]) {
        author.say(format!("# verdicts: type {packet_type}, each combination of the five bits"));
        for number in 0..32 {
            taken(author, word(packet_type, combination(number)));
        }
    }
    for packet_type in [24, 26, 90, 93, 12] {
        author.say(format!("# verdicts: type {packet_type} likewise, all other bits set"));
        for number in 0..32 {
            taken(author, word(packet_type, combination(number) | others()));
        }
    }
}

/// Each number with L3L4P: what is checked is good, then bad.
fn every_type(author: &mut Author) {
    author.say("# verdicts: each packet type, without an error bit and with both");
    queue(author, 4095);
    for packet_type in 0..256 {
        for errors in [0, IPE | L4E] {
            taken(author, word(packet_type, L3L4P | errors));
        }
    }
}

/// Each bit that is not one of the five, set alone beside them and clear alone, where a verdict is
/// good, where it is bad, and where one rule or another says not checked. A bit of the type makes
/// another type of it. DD and EOP stay, and each bit of the length comes alone.
fn other_bits(author: &mut Author) {
    author.say("# verdicts: each other bit, set alone and clear alone");
    queue(author, 4095);
    for (packet_type, bits) in [
        (26, L3L4P),
        (26, L3L4P | IPE | L4E),
        (93, L3L4P | IPV6EXADD),
        (90, L3L4P | INT_UDP_0 | IPV6EXADD),
        (24, L3L4P | INT_UDP_0),
        (24, IPE | L4E),
    ] {
        let (base, other) = (word(packet_type, bits), |bit: &u64| others() >> bit & 1 == 1);
        for bit in (0..64).filter(|bit| other(bit) || (30..38).contains(bit)) {
            taken(author, base ^ 1 << bit);
        }
        for bit in (0..64).filter(other) {
            taken(author, (base | others()) ^ 1 << bit);
        }
        for bit in 38..52 {
            taken(author, base & !(0x3FFF << 38) | 1 << bit);
        }
    }
}

/// Packets whose last slot alone says something, and whose other slots alone do: with data in the
/// last one, and with a dummy.
fn more_slots(author: &mut Author) {
    author.say("# verdicts: packets of more slots, of which the last decides");
    let says = [word(26, L3L4P), word(26, L3L4P | IPE | L4E), word(92, L3L4P | L4E), word(23, 0)];
    for count in 2..=6 {
        for (last, other) in says.into_iter().zip([says[1], says[0], says[3], says[2]]) {
            for dummy in [false, true] {
                let record = queue(author, count + 1);
                for before in 0..count - 1 {
                    written(author, &record, before, other & !0b10);
                }
                // a sixth slot is a dummy in any case
                let empty = dummy || count == 6;
                let end = if empty { last & !(0x3FFF << 38) | DUMMY } else { last };
                written(author, &record, count - 1, end);
                written(author, &record, count, other);
                author.say("take");
            }
        }
    }
    author.say("rxsum");
}

/// Takes that are refused, with a write-back at head that says good, and one that says bad.
fn refused(author: &mut Author) {
    author.say("# verdicts: refused takes, which say nothing");
    for errors in [0, IPE | L4E] {
        let whole = word(26, L3L4P | errors);
        let too_long = whole | (BUFFER + 1) << 38;
        let empty = whole & !(0x3FFF << 38);
        for (posted, word1) in [(0, whole), (1, whole & !1), (1, whole & !0b10), (2, whole & !0b10)]
            .into_iter()
            .chain([(1, too_long), (1, empty), (1, empty & !0b10)])
        {
            let record = queue(author, posted);
            written(author, &record, 0, word1);
            written(author, &record, 1, 0);
            author.say("take");
        }
        let record = author.bench.rx.record.with_posted(1);
        author.rxset_lent(record, 2 * record.size, record.size - 1);
        taken(author, whole);
    }
}
