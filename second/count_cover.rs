//! What a script met of the two counts: clauses beyond the number that is printed, and their bits.

use crate::cover::Seen;
use crate::record::{Record, MOST_EVER};
use crate::transmit::Send;

/// A call that prints the counts: its name in the table, and the names of its two fields.
pub struct Call {
    name: &'static str,
    ever_posted: &'static str,
    ever_returned: &'static str,
}

pub const POST: Call = Call {
    name: "post counts",
    ever_posted: "post EVERPOSTED",
    ever_returned: "post EVERRETURNED",
};
pub const TAKE: Call = Call {
    name: "take counts",
    ever_posted: "take EVERPOSTED",
    ever_returned: "take EVERRETURNED",
};
pub const BURST: Call = Call {
    name: "burst counts",
    ever_posted: "burst EVERPOSTED",
    ever_returned: "burst EVERRETURNED",
};
pub const SEND: Call = Call {
    name: "send counts",
    ever_posted: "send EVERPOSTED",
    ever_returned: "send EVERRETURNED",
};
pub const RECLAIM: Call = Call {
    name: "reclaim counts",
    ever_posted: "reclaim EVERPOSTED",
    ever_returned: "reclaim EVERRETURNED",
};

/// The names of the clauses that only a fresh queue or a send has.
pub const RX: &str = "rx counts";
pub const TX: &str = "tx counts";
const CONTEXT: &str = "send context slot";
const AGAIN: &str = "send again";

/// The ways in which counts do not agree with posted.
pub const DISAGREE: &[&str] = &[
    "posted below the counts' difference",
    "posted above the counts' difference",
    "more ever returned than ever posted",
    "counts whose difference wraps to posted",
];

/// How a count moved: these four for each of them.
const POSTED: [&str; 4] = [
    "ever posted moves from 0",
    "ever posted passes 2^32",
    "ever posted reaches 2^64 - 1",
    "ever posted moves by more than 1",
];
const RETURNED: [&str; 4] = [
    "ever returned moves from 0",
    "ever returned passes 2^32",
    "ever returned reaches 2^64 - 1",
    "ever returned moves by more than 1",
];
const BY_ONE: &[&str] = &[POSTED[0], POSTED[1], POSTED[2]];

const KEPT: &str = "counts not 0 and kept";
const NO_COUNT: &str = "no count room too";
const AT_END: &str = "ever posted is 2^64 - 1";
const WERE: &[&str] = &["counts were not 0"];

const TO_END: &[&str] = &["plain, up to 2^64 - 1", "segmented, up to 2^64 - 1"];
const ONE_SHORT: &[&str] =
    &["plain, count room for all but one", "count room for the pieces alone"];
const ROOM_NOW: &str = "the ring has room now";
const STILL: &[&str] = &["the ring has room now, the count has none", "still no room on the ring"];

/// Every clause of the counts that can be met, as in the table of the calls.
pub const CAUSES: &[(&str, u8, &[&str])] = &[
    (RX, 0, WERE),
    (RX, 1, WERE),
    (TX, 0, WERE),
    (TX, 1, WERE),
    (POST.name, 0, BY_ONE),
    (POST.name, 1, &[KEPT, NO_COUNT]),
    (POST.name, 2, &[KEPT, NO_COUNT]),
    (POST.name, 3, &[KEPT]),
    (TAKE.name, 0, &RETURNED),
    (TAKE.name, 0, &[AT_END]),
    (TAKE.name, 1, &[KEPT, AT_END]),
    (TAKE.name, 4, &[KEPT, AT_END]),
    (TAKE.name, 5, &[KEPT, AT_END]),
    (BURST.name, 0, &RETURNED),
    (BURST.name, 0, &[AT_END]),
    (BURST.name, 1, &[KEPT, AT_END]),
    (BURST.name, 4, &RETURNED),
    (BURST.name, 4, &[KEPT, AT_END]),
    // a slot that stops a burst with 5 stays posted, so what is ever returned is not at its end
    (BURST.name, 5, &[RETURNED[0], RETURNED[1], RETURNED[3]]),
    (BURST.name, 5, &[KEPT, AT_END]),
    (BURST.name, 10, &[KEPT, AT_END]),
    (SEND.name, 0, &POSTED),
    (SEND.name, 1, &[KEPT, NO_COUNT]),
    (SEND.name, 2, &[KEPT, NO_COUNT]),
    (SEND.name, 3, &[KEPT]),
    (SEND.name, 6, &[KEPT, NO_COUNT]),
    (SEND.name, 7, &[KEPT, NO_COUNT]),
    (SEND.name, 8, &[KEPT, NO_COUNT]),
    (CONTEXT, 0, TO_END),
    (CONTEXT, 3, ONE_SHORT),
    (AGAIN, 0, &[ROOM_NOW]),
    (AGAIN, 3, STILL),
    (RECLAIM.name, 0, &RETURNED),
    (RECLAIM.name, 0, &[AT_END]),
    (RECLAIM.name, 1, &[KEPT, AT_END]),
    (RECLAIM.name, 4, &[KEPT, AT_END]),
    (RECLAIM.name, 5, &[KEPT, AT_END]),
];

/// The fields whose bits are counted.
pub const COUNTED: [&str; 10] = [
    POST.ever_posted,
    POST.ever_returned,
    TAKE.ever_posted,
    TAKE.ever_returned,
    BURST.ever_posted,
    BURST.ever_returned,
    SEND.ever_posted,
    SEND.ever_returned,
    RECLAIM.ever_posted,
    RECLAIM.ever_returned,
];

/// A queue asked for where a record with counts stands.
pub fn fresh(name: &'static str, answer: u8, before: &Record, seen: &mut Seen) {
    if before.ever_posted != 0 && before.ever_returned != 0 {
        seen.answer(name, answer, WERE[0]);
    }
}

impl Call {
    /// A call, the record before and after it, and the slots that it was to post.
    pub fn met(&self, answer: u8, before: &Record, after: &Record, slots: u64, seen: &mut Seen) {
        if before.ever_posted == MOST_EVER {
            seen.answer(self.name, answer, AT_END);
        }
        if before != after {
            self.moved(answer, &POSTED, before.ever_posted, after.ever_posted, seen);
            self.moved(answer, &RETURNED, before.ever_returned, after.ever_returned, seen);
            seen.bits(self.ever_posted, 64, after.ever_posted);
            seen.bits(self.ever_returned, 64, after.ever_returned);
            return;
        }
        if before.ever_posted != 0 && before.ever_returned != 0 {
            seen.answer(self.name, answer, KEPT);
        }
        if slots > before.count_room() {
            seen.answer(self.name, answer, NO_COUNT);
        }
    }

    fn moved(&self, answer: u8, how: &[&'static str; 4], from: u64, to: u64, seen: &mut Seen) {
        let power = 1 << 32;
        for (clause, met) in how.iter().zip([
            from == 0 && to > 0,
            from < power && to >= power,
            from < MOST_EVER && to == MOST_EVER,
            to - from > 1,
        ]) {
            if met {
                seen.answer(self.name, answer, clause);
            }
        }
    }
}

/// A send refused with 3 on the transmit queue as it stands, and what was ever returned then.
pub struct Waiting {
    request: Send,
    ever_returned: u64,
}

/// What only a send shows: that the context slot is counted, and how a send refused with 3 goes on
/// once slots came back. `waiting` is that send, if there is one.
pub fn sent(
    request: &Send,
    answer: u8,
    before: &Record,
    waiting: &mut Option<Waiting>,
    seen: &mut Seen,
) {
    let (slots, kind) = (request.slots(), usize::from(request.segmented));
    if answer == 0 && slots == before.count_room() {
        seen.answer(CONTEXT, 0, TO_END[kind]);
    }
    let has_slots = answer == 3 && slots <= before.room();
    if has_slots && slots == before.count_room() + 1 {
        seen.answer(CONTEXT, 3, ONE_SHORT[kind]);
    }
    if let Some(refused) = waiting.take() {
        let came_back = before.ever_returned > refused.ever_returned;
        match answer {
            _ if !came_back || refused.request != *request => {}
            0 => seen.answer(AGAIN, 0, ROOM_NOW),
            3 => seen.answer(AGAIN, 3, STILL[usize::from(!has_slots)]),
            _ => {}
        }
    }
    if answer == 3 {
        let ever_returned = before.ever_returned;
        *waiting = Some(Waiting { request: request.clone(), ever_returned });
    }
}
