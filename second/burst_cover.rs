//! What a script met of bursts: clauses beyond the number that is printed, and the fields' bits.

use crate::burst::{Burst, LENT, MOST_PACKETS, NUMBERS};
use crate::cover::{self, Seen};
use crate::receive::{self, EMPTY_FIRST, EMPTY_NOT_LAST, MOST_SLOTS, NOT_POSTED, NOT_WRITTEN};
use crate::receive::{SIXTH, SIXTH_WITH_DATA, TOO_LONG};
use crate::record::{bits, Judged, Record, Refusal};
use crate::sixth_cover::{self, Queue};

/// A burst that was made: what came in, and what it gave.
pub struct Scene<'a> {
    pub record: Record,
    pub ring: &'a [u64],
    pub list: &'a [u64],
    pub limit: u64,
    /// How many numbers of the burst's list were lent.
    pub length: usize,
    /// The burst's list, all of it, before the call.
    pub came: &'a [u64],
    pub judged: &'a Judged<Burst>,
}

/// The names under which the clauses stand in the table, beside `burst` itself.
const PACKETS: &str = "burst packets";
const HANDED_UP: &str = "burst packet";
const LAST: &str = "burst last take";
const BOUND: &str = "burst examined";
const LEFT: &str = "burst left";
const ROUND: &str = "burst round";
const STALE: &str = "burst stale";
const KEPT: &str = "burst list";
const ORDER: &str = "burst order";
const ENDS: &str = "burst ends";

const NO_PACKET: &str = "no packet";
const ONE_PACKET: &str = "1 packet";
const SOME_PACKETS: &str = "2 to 30 packets";
const MOST_BUT_ONE: &str = "31 packets";
const ALL_PACKETS: &str = "32 packets";

/// Where the last take stopped; slots count from 1 at the packet's first.
const POSTED_END: [&str; MOST_SLOTS] = [
    "posted end before slot 1",
    "posted end before slot 2",
    "posted end before slot 3",
    "posted end before slot 4",
    "posted end before slot 5",
    "posted end before slot 6",
];
const CLEAR: [&str; MOST_SLOTS] = [
    "DD clear at slot 1",
    "DD clear at slot 2",
    "DD clear at slot 3",
    "DD clear at slot 4",
    "DD clear at slot 5",
    "DD clear at slot 6",
];
const ZERO: [&str; MOST_SLOTS] = [
    "length 0 at slot 1",
    "length 0 at slot 2",
    "length 0 at slot 3",
    "length 0 at slot 4",
    "length 0 at slot 5",
    "length 0 at slot 6",
];
const ABOVE: [&str; MOST_SLOTS] = [
    "above the buffer size at slot 1",
    "above the buffer size at slot 2",
    "above the buffer size at slot 3",
    "above the buffer size at slot 4",
    "above the buffer size at slot 5",
    "above the buffer size at slot 6",
];

const AT_BOUND: &[&str] =
    &["6 x 0 + 6", "6 x packets + 6, 1 to 30 packets", "6 x 31 + 6 = 192, the most"];
/// The sixth slot of the last packet is past the posted ones.
const ONE_BELOW: &[&str] = &["6 x 0 + 5", "6 x packets + 5, 1 to 30 packets", "6 x 31 + 5 = 191"];
const AT_LIMIT: &[&str] = &["6 x packets, 1 to 31 packets", "6 x 32 = 192, the most"];

const ACROSS: &[&str] = &["a packet across the ring's end", "packets on both sides of the end"];
const LIST_KEPT: &[&str] = &["list not 0 and kept"];
const PLACES: &[&str] =
    &["places written anew", "places past the packets stay", "places past the 96 stay"];
const SHORT_OR_LONG: &[&str] = &["0 lent", "95 lent", "97 lent", "128 lent"];
const NEXT: &[&str] = &["a packet", "an unfinished packet", "nothing posted", "a wrong write-back"];

pub const LIMITS: &[&str] = &["limit 1", "limit 2 to 31", "limit 32"];
pub const LENT_OUT: &[&str] = &["out too short", "out too long"];
pub const WRONG_LIMIT: &[&str] = &["limit 0", "limit above 32"];

/// Every clause of a burst that can be met, as in the table of the other calls.
pub const CAUSES: &[(&str, u8, &[&str])] = &[
    (PACKETS, 0, &[ONE_PACKET, SOME_PACKETS, MOST_BUT_ONE, ALL_PACKETS]),
    (PACKETS, 4, &[NO_PACKET, ONE_PACKET, SOME_PACKETS, MOST_BUT_ONE]),
    (PACKETS, 5, &[NO_PACKET, ONE_PACKET, SOME_PACKETS, MOST_BUT_ONE]),
    (LAST, 4, &POSTED_END),
    (LAST, 4, &CLEAR),
    (LAST, 5, &ZERO),
    (LAST, 5, &ABOVE),
    (LAST, 5, &SIXTH_WITH_DATA),
    (HANDED_UP, 0, &cover::TAKEN),
    (HANDED_UP, 4, &cover::TAKEN),
    (HANDED_UP, 5, &cover::TAKEN),
    (BOUND, 0, AT_LIMIT),
    (BOUND, 4, AT_BOUND),
    (BOUND, 4, ONE_BELOW),
    (BOUND, 5, AT_BOUND),
    (LEFT, 0, NEXT),
    (ROUND, 0, ACROSS),
    (ROUND, 4, ACROSS),
    (ROUND, 5, ACROSS),
    (STALE, 4, &["DD and EOP of the last lap past the posted slots"]),
    (KEPT, 0, PLACES),
    (KEPT, 1, LIST_KEPT),
    (KEPT, 4, PLACES),
    (KEPT, 5, PLACES),
    (KEPT, 10, LIST_KEPT),
    (ORDER, 1, &["limit wrong too"]),
    (ORDER, 10, NEXT),
    (ENDS, 1, SHORT_OR_LONG),
    (ENDS, 10, &["limit 33", "limit above 33"]),
];

/// The fields whose bits are counted.
pub const COUNTED: [&str; 9] = [
    "out INDEX",
    "out VALUE",
    "burst HEAD",
    "burst POSTED",
    "burst PACKETS",
    "burst EXAMINED",
    "burst first slot",
    "burst slot count",
    "burst total",
];

/// Which limit a burst that reached it had.
pub fn limit_kind(limit: u64) -> &'static str {
    match limit {
        1 => LIMITS[0],
        MOST_PACKETS => LIMITS[2],
        _ => LIMITS[1],
    }
}

pub fn out_line(index: usize, value: u64, seen: &mut Seen) {
    seen.bits("out INDEX", 7, index as u64);
    seen.bits("out VALUE", 64, value);
}

impl Scene<'_> {
    /// Notes what this burst met; `out` is the list after it.
    pub fn met(&self, out: &[u64], seen: &mut Seen) {
        match self.judged {
            Ok(burst) => {
                self.fields(burst, out, seen);
                self.stopped(burst, seen);
                self.places(burst, out, seen);
                self.round(burst, seen);
            }
            Err(refusal) => self.refused(refusal, seen),
        }
    }

    fn fields(&self, burst: &Burst, out: &[u64], seen: &mut Seen) {
        seen.bits("burst HEAD", 12, burst.record.head);
        seen.bits("burst POSTED", 12, burst.record.posted);
        seen.bits("burst PACKETS", 6, burst.packets);
        seen.bits("burst EXAMINED", 8, burst.examined);
        for packet in out.chunks(NUMBERS as usize).take(burst.packets as usize) {
            seen.bits("burst first slot", 12, packet[0]);
            seen.bits("burst slot count", 3, packet[1]);
            seen.bits("burst total", 17, packet[2]);
        }
    }

    fn stopped(&self, burst: &Burst, seen: &mut Seen) {
        let answer = answer_of(burst);
        seen.answer(PACKETS, answer, packets_kind(burst.packets));
        let (packets, examined) = (burst.packets, burst.examined);
        let most = MOST_SLOTS as u64;
        match burst.stop {
            Ok(()) => {
                if examined == most * packets {
                    seen.answer(BOUND, 0, AT_LIMIT[usize::from(packets == MOST_PACKETS)]);
                }
                seen.answer(LEFT, 0, self.next(burst.record));
            }
            Err(stop) => {
                let kind = usize::from(packets > 0) + usize::from(packets == MOST_PACKETS - 1);
                if examined == most * packets + most {
                    seen.answer(BOUND, answer, AT_BOUND[kind]);
                }
                if examined == most * packets + most - 1 && stop.cause == NOT_POSTED[SIXTH] {
                    seen.answer(BOUND, answer, ONE_BELOW[kind]);
                }
                self.last_take(burst, &stop, seen);
            }
        }
    }

    /// A take that hands a packet up reads its slots and no other, so the rest of what was examined
    /// is the last take's.
    fn last_take(&self, burst: &Burst, stop: &Refusal, seen: &mut Seen) {
        let handed_up = self.record.posted - burst.record.posted;
        let read = (burst.examined - handed_up) as usize;
        let clause = match stop.cause {
            cause if NOT_POSTED.contains(&cause) => POSTED_END[read],
            cause if NOT_WRITTEN.contains(&cause) => CLEAR[read - 1],
            cause if TOO_LONG.contains(&cause) => ABOVE[read - 1],
            cause if EMPTY_NOT_LAST.contains(&cause) || cause == EMPTY_FIRST => ZERO[read - 1],
            with_data => with_data,
        };
        seen.answer(LAST, stop.answer, clause);
        let tail = burst.record.tail() as usize;
        if POSTED_END.contains(&clause) && bits(self.ring[2 * tail + 1], 1, 0) == 0b11 {
            seen.answer(STALE, 4, "DD and EOP of the last lap past the posted slots");
        }
    }

    fn places(&self, burst: &Burst, out: &[u64], seen: &mut Seen) {
        let (answer, written) = (answer_of(burst), (NUMBERS * burst.packets) as usize);
        let lent = LENT as usize;
        let held = |from: usize, to: usize| self.came[from..to].iter().any(|number| *number != 0);
        if self.came[..written] != out[..written] {
            seen.answer(KEPT, answer, PLACES[0]);
        }
        if held(written, lent) {
            seen.answer(KEPT, answer, PLACES[1]);
        }
        if held(lent, out.len()) {
            seen.answer(KEPT, answer, PLACES[2]);
        }
    }

    /// The takes once more, one by one, to see what each meets and where its packet ends.
    fn round(&self, burst: &Burst, seen: &mut Seen) {
        let (mut record, mut across) = (self.record, false);
        let Scene { ring, list, .. } = *self;
        for _ in 0..burst.packets + u64::from(burst.stop.is_err()) {
            sixth_cover::BURST.met(Queue { record, ring, list }, seen);
            if let Ok((after, packet)) = receive::take(record, ring, list) {
                seen.answer(HANDED_UP, answer_of(burst), cover::packet_kind(&packet));
                across |= record.head + packet.count > record.size;
                record = after;
            }
        }
        let moved = self.record.posted - burst.record.posted;
        let both_sides = self.record.head + moved > self.record.size;
        if across {
            seen.answer(ROUND, answer_of(burst), ACROSS[0]);
        }
        if both_sides && !across {
            seen.answer(ROUND, answer_of(burst), ACROSS[1]);
        }
    }

    fn refused(&self, refusal: &Refusal, seen: &mut Seen) {
        if self.came.iter().any(|number| *number != 0) {
            seen.answer(KEPT, refusal.answer, LIST_KEPT[0]);
        }
        let wrong_limit = self.limit == 0 || self.limit > MOST_PACKETS;
        if refusal.answer == 10 {
            seen.answer(ORDER, 10, self.next(self.record));
        } else if wrong_limit {
            seen.answer(ORDER, 1, "limit wrong too");
        }
        match self.limit {
            33 if refusal.answer == 10 => seen.answer(ENDS, 10, "limit 33"),
            34.. if refusal.answer == 10 => seen.answer(ENDS, 10, "limit above 33"),
            _ => {}
        }
        let ends = [0, 95, 97, 128].iter().position(|length| *length == self.length);
        if let (Some(end), true) = (ends, LENT_OUT.contains(&refusal.cause)) {
            seen.answer(ENDS, 1, SHORT_OR_LONG[end]);
        }
    }

    /// What a further take would meet.
    fn next(&self, record: Record) -> &'static str {
        match receive::take(record, self.ring, self.list) {
            Ok(_) => NEXT[0],
            Err(Refusal { answer: 4, .. }) if record.posted > 0 => NEXT[1],
            Err(Refusal { answer: 4, .. }) => NEXT[2],
            Err(_) => NEXT[3],
        }
    }
}

fn answer_of(burst: &Burst) -> u8 {
    burst.stop.err().map_or(0, |stop| stop.answer)
}

fn packets_kind(packets: u64) -> &'static str {
    match packets {
        0 => NO_PACKET,
        1 => ONE_PACKET,
        31 => MOST_BUT_ONE,
        MOST_PACKETS => ALL_PACKETS,
        _ => SOME_PACKETS,
    }
}
