//! The counts' part of the fixed script: records in which they disagree with posted, each bit of
//! both, and their end.

use crate::author::Author;
use crate::burst::LENT;
use crate::fixed::{BEFORE, DUMMY};
use crate::layouts;
use crate::record::{Record, MOST_EVER};

const SIZE: u64 = 32;

pub fn all(author: &mut Author) {
    receive_disagrees(author);
    transmit_disagrees(author);
    each_bit(author);
    past_a_power(author);
    last_posts(author);
    last_takes(author);
    last_sends(author);
    refused_at_the_end(author);
    tried_again(author);
    most_slots(author);
    receive_laps(author);
    transmit_laps(author);
}

/// A receive record; both directions' are alike but for the limit.
fn receive(head: u64, counted: Record) -> Record {
    Record { queue: 1, size: SIZE, head, limit: 2048, ..counted }
}

fn transmit(head: u64, counted: Record) -> Record {
    Record { limit: 1518, ..receive(head, counted) }
}

/// So many slots posted, and room in the count for so many more.
fn with_count_room(posted: u64, room: u64) -> Record {
    Record::counted(0, posted).with_count_room(room)
}

/// Posted and counts that agree, and each way not to: by one on both sides, with the counts
/// exchanged or left out, and with a difference that is posted in its low bits alone.
fn agreeing_or_not() -> Vec<Record> {
    let mut all = Vec::new();
    for posted in [0, 1, 31] {
        let mut add = |ever_posted, ever_returned| {
            all.push(Record { posted, ever_posted, ever_returned, ..Record::default() })
        };
        for returned in [0, BEFORE, 1 << 32, MOST_EVER - posted] {
            let ever = returned + posted;
            add(ever, returned);
            add(ever.saturating_add(1), returned);
            add(ever.saturating_sub(1), returned);
            add(returned, ever);
        }
        for past in [0, posted / 2, posted.saturating_sub(1)] {
            add(past, past.wrapping_sub(posted));
        }
        for bit in [8, 12, 13, 16, 31, 32, 63] {
            add(posted + (1 << bit), 0);
            add(posted, 1 << bit);
        }
        for (ever, returned) in [(0, 0), (MOST_EVER, 0), (0, MOST_EVER), (MOST_EVER, MOST_EVER)] {
            add(ever, returned);
        }
    }
    all
}

fn receive_disagrees(author: &mut Author) {
    author.say("# counts: receive records in which they disagree with posted");
    for counted in agreeing_or_not() {
        author.rxset(receive(30, counted));
        for call in ["rxtail", "rxreg", "post 4096", "take", "burst 32 96"] {
            author.say(call);
        }
    }
    author.say("rxsum");
}

const PLAIN: &str = "send 77 0 0 0 0 0 0 0 0 0 0 1 1 4096 60";

fn transmit_disagrees(author: &mut Author) {
    author.say("# counts: transmit records in which they disagree with posted");
    for counted in agreeing_or_not() {
        author.txset(transmit(30, counted));
        for call in ["txtail", "txreg", PLAIN, "reclaim"] {
            author.say(call);
        }
    }
    author.say("txsum");
}

/// A packet of one slot, 60 bytes.
const WHOLE: u64 = 60 << 38 | 3;
/// A slot of a packet that goes on.
const PART: u64 = 60 << 38 | 1;
/// Longer than the buffer size.
const WRONG: u64 = 2049 << 38 | 3;

/// Word 1 of each of these slots, from `first` on.
fn written(author: &mut Author, first: u64, words: &[u64]) {
    for (step, word1) in words.iter().enumerate() {
        author.say(format!("rxpoke {} {word1}", 2 * ((first + step as u64) % SIZE) + 1));
    }
}

/// Each bit of both counts set on small ones and clear on full ones: every call carries into it.
fn each_bit(author: &mut Author) {
    author.say("# counts: each bit, set and clear");
    written(author, 0, &[WHOLE; 3]);
    author.say("txcount 0 1");
    author.say("txpoke 1 15");
    // a post clears a slot that a later burst reads only where fewer than three are posted, last
    for bit in (0..64).rev() {
        for ever_posted in [!(1u64 << bit), 1u64 << bit] {
            let posted = ever_posted.min(3);
            let counted = Record::counted(ever_posted - posted, posted);
            author.rxset(receive(0, counted));
            for call in ["post 4096", "take", "burst 1 96"] {
                author.say(call);
            }
            author.txset(transmit(0, counted));
            author.say("reclaim");
            author.say(PLAIN);
        }
    }
}

/// Counts just below a power of two, moved past it by each call.
fn past_a_power(author: &mut Author) {
    author.say("# counts: past a power of two");
    for bit in [8, 16, 31, 32, 33, 63] {
        let power = 1u64 << bit;
        written(author, 0, &[WHOLE; 3]);
        author.rxset(receive(0, Record::counted(power - 4, 3)));
        for call in ["post 4096", "take", "post 4096", "burst 2 96", "take", "post 4096"] {
            author.say(call);
        }
        author.txset(transmit(0, Record::counted(power - 2, 1)));
        author.say(PLAIN);
        author.say(pieces(2, true));
        for count in [1, 1, 3] {
            reclaimed(author, count);
        }
    }
}

/// Posts up to the count's end and one past it, with room on the ring, with just enough, with less.
fn last_posts(author: &mut Author) {
    author.say("# counts: the last posts");
    for posted in [0, 1, 17, 29, 30, 31] {
        for room in [0, 1, 2] {
            author.rxset(receive(20, with_count_room(posted, room)));
            // a wrong address is judged first
            author.say("post 0");
            for post in 0..=room + 1 {
                author.say(format!("post {}", 4096 * (post + 1)));
            }
            author.say("rxtail");
        }
        author.say("rxsum");
    }
    author.say("rx 4 32 2048");
    author.rxset(receive(20, with_count_room(3, 0)));
    author.say("rx 0 32 2048");
    author.say("post 4096");
}

/// At the count's end slots still come back: by takes, by bursts, and up to the very last.
fn last_takes(author: &mut Author) {
    author.say("# counts: slots that come back at the end");
    let five = [PART, PART, PART, PART, WHOLE];
    let six = [PART, PART, PART, PART, PART, DUMMY];
    for (words, posted) in [
        (vec![WHOLE; 4], 4),
        ([&five[..], &six].concat(), 11),
        (vec![WHOLE, WHOLE, PART, 0], 4),
        (vec![WHOLE, WHOLE, WRONG], 3),
        (vec![PART, WRONG], 2),
    ] {
        for ever_posted in [MOST_EVER, MOST_EVER - 1, (1 << 32) + posted - 1, posted] {
            let record = receive(30, Record::counted(ever_posted - posted, posted));
            written(author, 30, &words);
            for (limit, lent) in [(33, LENT), (1, LENT - 1), (1, LENT), (2, LENT), (32, LENT)] {
                author.rxset(record);
                author.say(format!("burst {limit} {lent}"));
            }
            author.rxset_lent(record, 2 * SIZE, SIZE - 1);
            author.say("take");
            author.rxset(record);
            for call in ["take", "take", "burst 32 96", "take", "post 4096", "post 4096"] {
                author.say(call);
            }
        }
    }
    author.say("rxsum");
}

/// A send of so many pieces of 60 bytes, after a header of 54 if it is segmented.
fn pieces(count: u64, segmented: bool) -> String {
    let addresses = vec!["4096"; count as usize].join(" ");
    let lengths = vec!["60"; count as usize].join(" ");
    let request = match segmented {
        false => "0 0 0 0 0 0 0 0 0 0".to_string(),
        true => format!("3 1 14 20 20 0 0 1 1000 {}", 60 * count - 54),
    };
    format!("send {count} {request} {count} {count} {addresses} {lengths}")
}

/// The device marks the packet of so many slots at the record's head, and it is reclaimed.
fn reclaimed(author: &mut Author, count: u64) {
    let record = author.bench.tx.record;
    author.say(format!("txcount {} {count}", record.head));
    author.say(format!("txpoke {} 15", 2 * record.slot(count - 1) + 1));
    author.say("reclaim");
}

/// Sends that need exactly the count's room, one slot more and one less, context slot included;
/// with room on the ring, with just enough, and with one slot too few.
fn last_sends(author: &mut Author) {
    author.say("# counts: the last sends");
    for count in [1, 2, 7, 8] {
        for segmented in [false, true] {
            let slots = count + u64::from(segmented);
            for posted in [0, SIZE - 1 - slots, SIZE - slots] {
                for room in [slots - 1, slots, slots + 1] {
                    author.txset(transmit(17, with_count_room(posted, room)));
                    author.say(pieces(count, segmented));
                    author.say("txtail");
                    author.say("reclaim");
                }
            }
            author.say("txsum");
        }
    }
    author.txset(transmit(17, with_count_room(3, 0)));
    author.say("tx 4 32 1518");
    author.txset(transmit(17, with_count_room(3, 0)));
    author.say("tx 0 32 1518");
    author.say(PLAIN);
}

/// Sends and reclaims with another cause at the count's end: the other comes first.
fn refused_at_the_end(author: &mut Author) {
    author.say("# counts: other refusals at the end");
    let nine = "54 209 209 209 209 209 209 209 209 209 209 209 209 209 209";
    let crowded =
        format!("send 1 3 1 14 20 20 0 0 1 1460 2926 15 15 {} {nine}", vec!["4096"; 15].join(" "));
    for room in [0, 1, 100] {
        for send in [
            "send 1 0 0 0 0 0 0 0 0 0 0 1 1 4096 16",
            "send 1 0 0 0 0 0 0 0 0 0 0 2 2 4096 0 60 60",
            "send 1 2 3 13 20 8 0 0 0 0 0 2 2 4096 4096 60 60",
            crowded.as_str(),
        ] {
            author.txset(transmit(3, with_count_room(5, room)));
            author.say(send);
        }
    }
    author.txset_lent(transmit(3, with_count_room(5, 0)), [2 * SIZE, SIZE, SIZE + 1]);
    author.say(PLAIN);
    author.say("reclaim");
    for (count, word1) in [(0, 15), (6, 15), (5, 14), (5, 15)] {
        author.txset(transmit(3, with_count_room(5, 0)));
        author.say(format!("txcount 3 {count}"));
        author.say(format!("txpoke 15 {word1}"));
        author.say("reclaim");
    }
}

/// A send refused with 3 is tried again as slots come back: reclaiming makes room on the ring, and
/// none in the count.
fn tried_again(author: &mut Author) {
    author.say("# counts: a send refused with 3, tried again after reclaims");
    for (posted, room) in [(31, 100), (31, 3), (31, 2), (31, 0), (20, 2), (20, 0), (20, 3)] {
        author.txset(transmit(9, with_count_room(posted, room)));
        for _ in 0..4 {
            author.say(pieces(2, true));
            reclaimed(author, 2);
        }
    }
    author.say("txsum");
}

/// The send that takes the most slots, where the count has room for them and for one less.
fn most_slots(author: &mut Author) {
    author.say("# counts: 4,095 slots");
    let send = layouts::line(&layouts::many(&mut author.random, 4094, false));
    for room in [4094, 4095] {
        let counted = with_count_room(0, room);
        author.txset(Record { queue: 0, size: 4096, head: 2, limit: 1518, ..counted });
        author.say(&send);
    }
    reclaimed(author, 4095);
    author.say("txsum");
}

/// A driver whose count ends within its second lap: posts are refused, packets still come.
fn receive_laps(author: &mut Author) {
    author.say("# counts: receive laps up to the end");
    author.rxset(receive(5, with_count_room(0, 45)));
    for turn in 0..12u64 {
        for post in 0..5 {
            author.say(format!("post {}", 0x1_0000 * (turn + 1) + 0x800 * post));
        }
        let record = author.bench.rx.record;
        let count = (1 + turn % 5).min(record.posted);
        for place in 1..=count {
            let word1 = if place == count { WHOLE } else { PART };
            written(author, record.head + place - 1, &[word1]);
        }
        author.say(if turn % 3 == 0 { "burst 2 96" } else { "take" });
    }
    author.say("rxsum");
}

/// Sends of one to four pieces, every other one segmented, until the count ends; all come back.
fn transmit_laps(author: &mut Author) {
    author.say("# counts: transmit laps up to the end");
    author.txset(transmit(5, with_count_room(0, 45)));
    for turn in 0..20 {
        author.say(pieces(1 + turn % 4, turn % 2 == 1));
        let record = author.bench.tx.record;
        if turn % 3 > 0 && record.posted > 0 {
            let count = u64::from(author.bench.tx.counts[record.head as usize]);
            reclaimed(author, count);
        }
    }
    author.say("txsum");
}
