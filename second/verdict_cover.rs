//! What a script met of verdicts: each kind of packet type with each combination of the bits that a
//! verdict may go by, and where a verdict read at a wrong place would show.

use crate::cover::Seen;
use crate::receive::{self, Packet, VERDICTS};
use crate::record::{bits, Judged, Record};
use crate::sixth_cover::Queue;

/// The kinds of packet types. L4 is never checked for these ..
const UNCHECKED: [&str; 9] = [
    "unknown",
    "plain MAC",
    "ARP",
    "IPv4 fragment",
    "IPv4 without an L4 kind",
    "IPv4 ICMP",
    "IPv6 fragment",
    "IPv6 without an L4 kind",
    "IPv6 ICMP",
];

/// .. and the bits decide for these.
const CHECKED: [&str; 6] =
    ["IPv4 UDP", "IPv4 TCP", "IPv4 SCTP", "IPv6 UDP", "IPv6 TCP", "IPv6 SCTP"];

/// Those that have the L3 verdict from IPE, those that never have it, and those that INT_UDP_0 says
/// something of or not.
const IPV4: [&str; 6] =
    [UNCHECKED[3], UNCHECKED[4], UNCHECKED[5], CHECKED[0], CHECKED[1], CHECKED[2]];
const NOT_IPV4: [&str; 9] = [
    UNCHECKED[0],
    UNCHECKED[1],
    UNCHECKED[2],
    UNCHECKED[6],
    UNCHECKED[7],
    UNCHECKED[8],
    CHECKED[3],
    CHECKED[4],
    CHECKED[5],
];
const IPV4_UDP: [&str; 1] = [CHECKED[0]];
const IPV6_UDP: [&str; 1] = [CHECKED[3]];
const TCP_AND_SCTP: [&str; 4] = [CHECKED[1], CHECKED[2], CHECKED[4], CHECKED[5]];

fn kind(packet_type: u64) -> &'static str {
    match packet_type {
        1 => UNCHECKED[1],
        11 => UNCHECKED[2],
        22 => UNCHECKED[3],
        23 => UNCHECKED[4],
        24 => CHECKED[0],
        26 => CHECKED[1],
        27 => CHECKED[2],
        28 => UNCHECKED[5],
        88 => UNCHECKED[6],
        89 => UNCHECKED[7],
        90 => CHECKED[3],
        92 => CHECKED[4],
        93 => CHECKED[5],
        94 => UNCHECKED[8],
        _ => UNCHECKED[0],
    }
}

/// The names under which the clauses stand in the table, by the bits that are set; a clause's
/// answer is the verdict.
const L3: [&str; 4] = ["L3", "L3 with IPE", "L3 with L3L4P", "L3 with L3L4P, IPE"];
const L4: [&str; 16] = [
    "L4",
    "L4 with L4E",
    "L4 with IPV6EXADD",
    "L4 with IPV6EXADD, L4E",
    "L4 with INT_UDP_0",
    "L4 with INT_UDP_0, L4E",
    "L4 with INT_UDP_0, IPV6EXADD",
    "L4 with INT_UDP_0, IPV6EXADD, L4E",
    "L4 with L3L4P",
    "L4 with L3L4P, L4E",
    "L4 with L3L4P, IPV6EXADD",
    "L4 with L3L4P, IPV6EXADD, L4E",
    "L4 with L3L4P, INT_UDP_0",
    "L4 with L3L4P, INT_UDP_0, L4E",
    "L4 with L3L4P, INT_UDP_0, IPV6EXADD",
    "L4 with L3L4P, INT_UDP_0, IPV6EXADD, L4E",
];

/// Names of other clauses, which have no answer and stand as 0; a refused take has its own.
const BOTH: &str = "L3 and L4";
const UNKNOWN: &str = "L3L4P, IPE, L4E of type";
const DECIDES: &str = "one bit decides";
const DUMMY: &str = "a dummy's";
const OTHER_SLOT: &str = "another slot says another";
const REFUSED: &str = "refused, and head says";

/// Both verdicts, the first in rows and the second in columns.
const TOGETHER: [[&str; 3]; 3] = [
    ["not checked, not checked", "not checked, good", "not checked, bad"],
    ["good, not checked", "good, good", "good, bad"],
    ["bad, not checked", "bad, good", "bad, bad"],
];

/// Unknown types: reserved, to be ignored, at the field's end, and the rest.
const NUMBERS: [&str; 6] = ["0", "12", "25", "91", "255", "another"];

/// Each bit that decides, by its number in word 1: a verdict would be another with this bit alone
/// the other way round, and both its neighbours are so.
const BITS: [(u32, [&str; 2]); 5] = [
    (3, ["L3L4P clear between set bits", "L3L4P set between clear bits"]),
    (15, ["IPV6EXADD clear between set bits", "IPV6EXADD set between clear bits"]),
    (18, ["INT_UDP_0 clear between set bits", "INT_UDP_0 set between clear bits"]),
    (22, ["IPE clear between set bits", "IPE set between clear bits"]),
    (23, ["L4E clear between set bits", "L4E set between clear bits"]),
];

/// A verdict that is not 0, by which it is and what it says.
const SAYS: [[&str; 2]; 2] = [["L3 good", "L3 bad"], ["L4 good", "L4 bad"]];
const EACH: [&str; 4] = [SAYS[0][0], SAYS[0][1], SAYS[1][0], SAYS[1][1]];

/// Slots whose word 1 a verdict must not come from, of a packet of two or more.
const SLOTS: [[&str; 2]; 3] = [
    ["L3, the first", "L4, the first"],
    ["L3, the one before the last", "L4, the one before the last"],
    ["L3, the one behind the packet", "L4, the one behind the packet"],
];

/// Every clause of a verdict, as in the table of the calls.
pub const CAUSES: &[(&str, u8, &[&str])] = &[
    (L3[0], 0, &IPV4),
    (L3[0], 0, &NOT_IPV4),
    (L3[1], 0, &IPV4),
    (L3[1], 0, &NOT_IPV4),
    (L3[2], 0, &NOT_IPV4),
    (L3[2], 1, &IPV4),
    (L3[3], 0, &NOT_IPV4),
    (L3[3], 2, &IPV4),
    (L4[0], 0, &UNCHECKED),
    (L4[0], 0, &CHECKED),
    (L4[1], 0, &UNCHECKED),
    (L4[1], 0, &CHECKED),
    (L4[2], 0, &UNCHECKED),
    (L4[2], 0, &CHECKED),
    (L4[3], 0, &UNCHECKED),
    (L4[3], 0, &CHECKED),
    (L4[4], 0, &UNCHECKED),
    (L4[4], 0, &CHECKED),
    (L4[5], 0, &UNCHECKED),
    (L4[5], 0, &CHECKED),
    (L4[6], 0, &UNCHECKED),
    (L4[6], 0, &CHECKED),
    (L4[7], 0, &UNCHECKED),
    (L4[7], 0, &CHECKED),
    (L4[8], 0, &UNCHECKED),
    (L4[8], 1, &CHECKED),
    (L4[9], 0, &UNCHECKED),
    (L4[9], 2, &CHECKED),
    (L4[10], 0, &UNCHECKED),
    (L4[10], 0, &CHECKED),
    (L4[11], 0, &UNCHECKED),
    (L4[11], 0, &CHECKED),
    (L4[12], 0, &UNCHECKED),
    (L4[12], 0, &IPV4_UDP),
    (L4[12], 2, &IPV6_UDP),
    (L4[12], 1, &TCP_AND_SCTP),
    (L4[13], 0, &UNCHECKED),
    (L4[13], 0, &IPV4_UDP),
    (L4[13], 2, &IPV6_UDP),
    (L4[13], 2, &TCP_AND_SCTP),
    (L4[14], 0, &UNCHECKED),
    (L4[14], 0, &IPV4_UDP),
    (L4[14], 2, &IPV6_UDP),
    (L4[14], 0, &TCP_AND_SCTP),
    (L4[15], 0, &UNCHECKED),
    (L4[15], 0, &IPV4_UDP),
    (L4[15], 2, &IPV6_UDP),
    (L4[15], 0, &TCP_AND_SCTP),
    (BOTH, 0, &TOGETHER[0]),
    (BOTH, 0, &TOGETHER[1]),
    (BOTH, 0, &TOGETHER[2]),
    (UNKNOWN, 0, &NUMBERS),
    (DECIDES, 0, &BITS[0].1),
    (DECIDES, 0, &BITS[1].1),
    (DECIDES, 0, &BITS[2].1),
    (DECIDES, 0, &BITS[3].1),
    (DECIDES, 0, &BITS[4].1),
    (DUMMY, 0, &EACH),
    (OTHER_SLOT, 0, &SLOTS[0]),
    (OTHER_SLOT, 0, &SLOTS[1]),
    (OTHER_SLOT, 0, &SLOTS[2]),
    (REFUSED, 4, &EACH),
    (REFUSED, 5, &EACH),
];

/// The fields whose bits are counted: word 1 where a verdict is not 0.
pub const COUNTED: [&str; 2] = ["word 1, L3 checked", "word 1, L4 checked"];

/// All of it but DD, EOP, L3L4P and the packet type, which are given.
const FREE: u64 = !(0b1011 | 0xFF << 30);

/// The verdicts that these two words say.
fn said(words: [u64; 2]) -> [u64; 2] {
    let fields = receive::fields(words[0], words[1]);
    VERDICTS.map(|place| fields[place])
}

/// A take that was made on this queue.
pub fn met(queue: Queue, judged: &Judged<(Record, Packet)>, seen: &mut Seen) {
    match judged {
        Ok((_, packet)) => handed_up(queue, packet, seen),
        // such a record may have no head slot
        Err(refusal) if refusal.answer == 1 => {}
        Err(refusal) => each_said(said(queue.words(0)), REFUSED, refusal.answer, seen),
    }
}

fn handed_up(queue: Queue, packet: &Packet, seen: &mut Seen) {
    let last = packet.count - 1;
    let (words, verdicts) = (queue.words(last), VERDICTS.map(|place| packet.fields[place]));
    combination(words[1], verdicts, seen);
    unknown(words[1], seen);
    deciding(words, verdicts, seen);
    if packet.lengths[last as usize] == 0 {
        each_said(verdicts, DUMMY, 0, seen);
    }
    if last > 0 {
        for (distance, clauses) in [0, last - 1, last + 1].into_iter().zip(SLOTS) {
            let other = said(queue.words(distance));
            for place in (0..2).filter(|place| other[*place] != verdicts[*place]) {
                seen.answer(OTHER_SLOT, 0, clauses[place]);
            }
        }
    }
    for (name, verdict) in COUNTED.into_iter().zip(verdicts) {
        if verdict > 0 {
            seen.masked(name, FREE, words[1]);
        }
    }
}

/// The kind of the packet type with the bits that are set.
fn combination(word1: u64, [l3, l4]: [u64; 2], seen: &mut Seen) {
    let bit = |number: u32| bits(word1, number, number) as usize;
    let kind = kind(bits(word1, 37, 30));
    seen.answer(L3[2 * bit(3) + bit(22)], l3 as u8, kind);
    seen.answer(L4[8 * bit(3) + 4 * bit(18) + 2 * bit(15) + bit(23)], l4 as u8, kind);
    seen.answer(BOTH, 0, TOGETHER[l3 as usize][l4 as usize]);
}

/// An unknown type with L3L4P and both error bits set.
fn unknown(word1: u64, seen: &mut Seen) {
    let number = bits(word1, 37, 30);
    let all_set = [3, 22, 23].into_iter().all(|bit| bits(word1, bit, bit) == 1);
    if all_set && kind(number) == UNCHECKED[0] {
        let alone = number.to_string();
        let clause = NUMBERS.into_iter().find(|clause| *clause == alone).unwrap_or(NUMBERS[5]);
        seen.answer(UNKNOWN, 0, clause);
    }
}

fn deciding([word0, word1]: [u64; 2], verdicts: [u64; 2], seen: &mut Seen) {
    for (bit, clauses) in BITS {
        let value = bits(word1, bit, bit);
        let between = [bit - 1, bit + 1].into_iter().all(|near| bits(word1, near, near) != value);
        if between && said([word0, word1 ^ 1 << bit]) != verdicts {
            seen.answer(DECIDES, 0, clauses[value as usize]);
        }
    }
}

fn each_said(verdicts: [u64; 2], name: &'static str, answer: u8, seen: &mut Seen) {
    for (verdict, clauses) in verdicts.into_iter().zip(SAYS) {
        if verdict > 0 {
            seen.answer(name, answer, clauses[verdict as usize - 1]);
        }
    }
}
