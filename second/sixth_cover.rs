//! What a script met where a packet's fifth or sixth slot decides: clauses beyond the number that
//! is printed, and the bits of a sixth slot.

use crate::cover::Seen;
use crate::receive::{self, Packet, DATA_SLOTS, MOST_SLOTS, NOT_POSTED, NOT_WRITTEN, SIXTH};
use crate::record::{bits, Record, Refusal, MOST_EVER};

/// Takes as this call makes them: the names under which the clauses stand in the table.
pub struct Call {
    fifth: &'static str,
    sixth: &'static str,
}

pub const TAKE: Call = Call { fifth: "take fifth slot", sixth: "take sixth slot" };
pub const BURST: Call = Call { fifth: "burst fifth slot", sixth: "burst sixth slot" };

/// A packet of six slots on the ring.
const RING_END: [&str; MOST_SLOTS] = [
    "slot 1 is the ring's last",
    "slot 2 is the ring's last",
    "slot 3 is the ring's last",
    "slot 4 is the ring's last",
    "slot 5 is the ring's last",
    "slot 6 is the ring's last",
];
const SIX: [&str; 6] = [
    "all but one slot posted",
    "nothing posted behind it",
    "a packet behind it",
    "five full buffers",
    "ever returned reaches 2^64 - 1",
    "other fields in the fifth slot",
];

/// What stands at the sixth place, which is not to be believed.
const NOT_BELIEVED: [&str; 4] = [
    "not posted, length 0 and EOP there",
    "not posted, a wrong write-back there",
    "not written, length 0 and EOP there",
    "not written, a length there",
];

/// What stands in the posted slot behind the one that decides.
const BEHIND: [&str; 3] =
    ["length 0 and EOP behind it", "another write-back behind it", "nothing written behind it"];

/// Every clause of these takes that can be met, as in the table of the calls.
pub const CAUSES: &[(&str, u8, &[&str])] = &[
    (TAKE.fifth, 0, &BEHIND),
    (TAKE.fifth, 4, &BEHIND),
    (TAKE.fifth, 5, &BEHIND),
    (TAKE.sixth, 0, &RING_END),
    (TAKE.sixth, 0, &SIX),
    (TAKE.sixth, 4, &NOT_BELIEVED),
    (TAKE.sixth, 5, &BEHIND),
    (BURST.fifth, 0, &BEHIND),
    (BURST.fifth, 4, &BEHIND),
    (BURST.fifth, 5, &BEHIND),
    (BURST.sixth, 0, &RING_END),
    // a burst returns no fields
    (BURST.sixth, 0, &[SIX[0], SIX[1], SIX[2], SIX[3], SIX[4]]),
    (BURST.sixth, 4, &NOT_BELIEVED),
    (BURST.sixth, 5, &BEHIND),
];

/// The fields whose bits are counted.
pub const COUNTED: [&str; 3] = ["sixth address", "sixth word 0", "sixth word 1"];

/// All of word 1 but DD, EOP and the length, which are given.
const FREE_SIXTH: u64 = !(0b11 | 0x3FFF << 38);

/// A receive queue as a take sees it.
#[derive(Clone, Copy)]
pub struct Queue<'a> {
    pub record: Record,
    pub ring: &'a [u64],
    pub list: &'a [u64],
}

/// A packet that a take handed up, and the two words of its last slot.
pub fn fields(packet: &Packet, words: [u64; 2], seen: &mut Seen) {
    if packet.count == MOST_SLOTS as u64 {
        seen.bits("sixth address", 64, packet.addresses[DATA_SLOTS]);
        seen.bits("sixth word 0", 64, words[0]);
        seen.masked("sixth word 1", FREE_SIXTH, words[1]);
    }
}

impl Call {
    /// Notes what a take on this queue meets, if a fifth or a sixth slot decides it.
    pub fn met(&self, queue: Queue, seen: &mut Seen) {
        let mut read = 0;
        let judged = receive::take_counted(queue.record, queue.ring, queue.list, &mut read);
        let (answer, before) = match &judged {
            Ok(_) => (0, read - 1),
            Err(Refusal { answer: 1, .. }) => return,
            Err(refusal) if NOT_POSTED.contains(&refusal.cause) => (4, read),
            Err(refusal) => (refusal.answer, read - 1),
        };
        let (fifth, sixth) = (before as usize + 1 == DATA_SLOTS, before as usize == DATA_SLOTS);
        match judged {
            Ok((after, packet)) if sixth => self.six_slots(queue, after, &packet, seen),
            Err(refusal) if sixth && answer == 4 => self.not_believed(queue, refusal, seen),
            _ if sixth => queue.behind(before, self.sixth, answer, seen),
            _ if fifth => queue.behind(before, self.fifth, answer, seen),
            _ => {}
        }
    }

    fn six_slots(&self, queue: Queue, after: Record, packet: &Packet, seen: &mut Seen) {
        let Record { size, head, posted, limit, .. } = queue.record;
        for (before, clause) in RING_END.iter().enumerate() {
            if head + before as u64 + 1 == size {
                seen.answer(self.sixth, 0, clause);
            }
        }
        let fifth = queue.words(DATA_SLOTS as u64 - 1);
        // the fields as they would be, had the fifth slot EOP
        let of_the_fifth = receive::fields(fifth[0], fifth[1] | 0b10);
        for (clause, met) in SIX.iter().zip([
            posted == size - 1,
            after.posted == 0,
            receive::take(after, queue.ring, queue.list).is_ok(),
            packet.lengths[..DATA_SLOTS] == [limit; DATA_SLOTS],
            after.ever_returned == MOST_EVER,
            of_the_fifth != packet.fields,
        ]) {
            if met {
                seen.answer(self.sixth, 0, clause);
            }
        }
    }

    fn not_believed(&self, queue: Queue, refusal: Refusal, seen: &mut Seen) {
        let word1 = queue.words(DATA_SLOTS as u64)[1];
        let (done, empty_end) = (bits(word1, 0, 0) == 1, is_empty_end(word1));
        let unwritten = refusal.cause == NOT_WRITTEN[SIXTH];
        for (clause, met) in NOT_BELIEVED.iter().zip([
            done && empty_end,
            done && !empty_end,
            unwritten && empty_end,
            unwritten && receive::length_of(word1) > 0,
        ]) {
            if met {
                seen.answer(self.sixth, 4, clause);
            }
        }
    }
}

/// A length of 0 with EOP, whether it is written or not.
fn is_empty_end(word1: u64) -> bool {
    receive::end_of_packet(word1) && receive::length_of(word1) == 0
}

impl Queue<'_> {
    /// Both words of the slot at this distance from head, posted or not.
    pub fn words(&self, distance: u64) -> [u64; 2] {
        let slot = self.record.slot(distance);
        [self.ring[2 * slot], self.ring[2 * slot + 1]]
    }

    /// What stands behind the slot at this distance, if that one is posted.
    fn behind(&self, distance: u64, name: &'static str, answer: u8, seen: &mut Seen) {
        if distance + 1 >= self.record.posted {
            return;
        }
        let word1 = self.words(distance + 1)[1];
        let clause = match (bits(word1, 0, 0) == 1, is_empty_end(word1)) {
            (true, true) => BEHIND[0],
            (true, false) => BEHIND[1],
            (false, _) => BEHIND[2],
        };
        seen.answer(name, answer, clause);
    }
}
