//! Receiving: post, take and the write-back of Section 2.1.2.2.

use crate::record::{bits, judge_buffer, judge_length, unless_broken};
use crate::record::{Direction, Judged, Record};
use crate::verdict::verdicts;

/// A packet is one to five slots with data ..
pub const DATA_SLOTS: usize = 5;

/// .. and then at most one of length 0, last (the dummy of Section 2.1.3): the places of a packet.
pub const MOST_SLOTS: usize = DATA_SLOTS + 1;

pub const FIELDS: usize = 17;

/// Why a post is answered 3.
pub const NO_ROOM: [&str; 3] =
    ["all but one slot posted", "no count left", "all but one slot posted and no count left"];

/// Why a take is answered 4: at a packet's first slot, at its second to fifth, at its sixth.
pub const NOT_POSTED: [&str; 3] =
    ["posted 0", "past the posted slots", "sixth past the posted slots"];
pub const NOT_WRITTEN: [&str; 3] =
    ["DD clear in a first slot", "DD clear later", "DD clear in a sixth slot"];
pub const SIXTH: usize = 2;

/// Why a take is answered 5, at these likewise; then what is wrong in a first slot alone, and what
/// is in a sixth.
pub const TOO_LONG: [&str; 3] =
    ["above the buffer size first", "above the buffer size later", "sixth above the buffer size"];
pub const EMPTY_NOT_LAST: [&str; 3] =
    ["0 first without EOP", "0 later without EOP", "sixth of length 0 without EOP"];
pub const EMPTY_FIRST: &str = "0 first with EOP";
pub const SIXTH_WITH_DATA: [&str; 2] = ["sixth with data without EOP", "sixth with data and EOP"];

/// The fields of a packet's last slot, in the order in which they print.
pub const FIELD_NAMES: [&str; FIELDS] = [
    "VLAN",
    "HASH",
    "DD",
    "EOP",
    "L2TAG1P",
    "L3L4P",
    "CRCP",
    "UMBCAST",
    "FLTSTAT",
    "LPBK",
    "IPV6EXADD",
    "INT_UDP_0",
    "L3",
    "L4",
    "OVERSIZE",
    "PTYPE",
    "FAMILY",
];

/// The places of L3 and L4 among them.
pub const VERDICTS: [usize; 2] = [12, 13];

#[derive(Clone, Copy, Debug, Default, PartialEq, Eq)]
pub struct Packet {
    pub count: u64,
    pub total: u64,
    pub addresses: [u64; MOST_SLOTS],
    pub lengths: [u64; MOST_SLOTS],
    pub fields: [u64; FIELDS],
}

pub fn judge_lent(record: &Record, ring: usize, list: usize) -> Judged<()> {
    record.judge(Direction::Receive)?;
    judge_length(ring, 2 * record.size, ["ring too short", "ring too long"])?;
    judge_length(list, record.size, ["list too short", "list too long"])
}

pub fn post(record: Record, ring: &mut [u64], list: &mut [u64], address: u64) -> Judged<Record> {
    judge_lent(&record, ring.len(), list.len())?;
    judge_buffer(address, record.limit)?;
    record.judge_room(1, NO_ROOM)?;
    let tail = record.tail() as usize;
    ring[2 * tail] = address;
    ring[2 * tail + 1] = 0;
    list[tail] = address;
    Ok(record.posted_more(1))
}

pub fn take(record: Record, ring: &[u64], list: &[u64]) -> Judged<(Record, Packet)> {
    take_counted(record, ring, list, &mut 0)
}

/// A take that adds one to `examined` for each slot whose word 1 it reads.
pub fn take_counted(
    record: Record,
    ring: &[u64],
    list: &[u64],
    examined: &mut u64,
) -> Judged<(Record, Packet)> {
    judge_lent(&record, ring.len(), list.len())?;
    let mut packet = Packet::default();
    for before in 0..MOST_SLOTS {
        unless_broken(before as u64 >= record.posted, 4, NOT_POSTED[kind(before)])?;
        let slot = record.slot(before as u64);
        let word1 = ring[2 * slot + 1];
        *examined += 1;
        judge_slot(before, word1, record.limit)?;
        packet.addresses[before] = list[slot];
        packet.lengths[before] = length_of(word1);
        packet.total += length_of(word1);
        packet.count += 1;
        if end_of_packet(word1) {
            packet.fields = fields(ring[2 * slot], word1);
            return Ok((record.moved_on(packet.count), packet));
        }
    }
    unreachable!("a sixth slot without EOP is refused")
}

/// Which of the three names a cause has at a slot.
fn kind(before: usize) -> usize {
    match before {
        0 => 0,
        DATA_SLOTS => SIXTH,
        _ => 1,
    }
}

/// One slot met by take, with so many slots of its packet before it.
fn judge_slot(before: usize, word1: u64, buffer: u64) -> Judged<()> {
    let (done, eop, length) = (bits(word1, 0, 0) == 1, end_of_packet(word1), length_of(word1));
    let (first, sixth) = (before == 0, before == DATA_SLOTS);
    unless_broken(!done, 4, NOT_WRITTEN[kind(before)])?;
    unless_broken(length > buffer, 5, TOO_LONG[kind(before)])?;
    unless_broken(length == 0 && !eop, 5, EMPTY_NOT_LAST[kind(before)])?;
    unless_broken(length == 0 && first, 5, EMPTY_FIRST)?;
    unless_broken(length > 0 && sixth, 5, SIXTH_WITH_DATA[usize::from(eop)])
}

pub fn end_of_packet(word1: u64) -> bool {
    bits(word1, 1, 1) == 1
}

pub fn length_of(word1: u64) -> u64 {
    bits(word1, 51, 38)
}

/// The fields named in document 01, of the last slot's two words; for raw IPE and L4E the verdicts.
pub fn fields(word0: u64, word1: u64) -> [u64; FIELDS] {
    let status = bits(word1, 18, 0);
    let error = bits(word1, 26, 19);
    let packet_type = bits(word1, 37, 30);
    let tag_present = bits(status, 2, 2);
    let filter_status = bits(status, 13, 12);
    let [l3, l4] = verdicts(word1);
    [
        if tag_present == 1 { bits(word0, 31, 16) } else { 0 },
        if filter_status == 0b11 { bits(word0, 63, 32) } else { 0 },
        bits(status, 0, 0),
        bits(status, 1, 1),
        tag_present,
        bits(status, 3, 3),
        bits(status, 4, 4),
        bits(status, 10, 9),
        filter_status,
        bits(status, 14, 14),
        bits(status, 15, 15),
        bits(status, 18, 18),
        l3 as u64,
        l4 as u64,
        bits(error, 6, 6),
        packet_type,
        family(packet_type),
    ]
}

/// The type family as it prints: 0 unknown, 1 plain MAC, 2 ARP, 3 IPv4, 4 IPv6.
pub fn family(packet_type: u64) -> u64 {
    match packet_type {
        1 => 1,
        11 => 2,
        22..=24 | 26..=28 => 3,
        88..=90 | 92..=94 => 4,
        _ => 0,
    }
}
