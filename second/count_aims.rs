//! What a random script tries with the two counts: records in which they disagree with posted, and
//! queues whose count is about to end.

use crate::author::{Author, Random};
use crate::burst_aims::{self, take_or_poll};
use crate::layouts;
use crate::receive_aims::{self, device_packet};
use crate::record::{Direction, Record, MOST_EVER};
use crate::transmit_aims::{self, mark_oldest};

/// Counts that mostly disagree with posted, from ones that agree.
fn disagreeing(random: &mut Random, record: Record) -> Record {
    let Record { posted, ever_posted, ever_returned, .. } = record;
    let (ever_posted, ever_returned) = match random.below(9) {
        0 => (ever_posted.wrapping_add(1), ever_returned),
        1 => (ever_posted.wrapping_sub(1), ever_returned),
        2 => (ever_posted, ever_returned.wrapping_add(1)),
        3 => (ever_posted, ever_returned.wrapping_sub(1)),
        4 => (ever_returned, ever_posted),
        5 => (ever_posted, ever_posted.saturating_add(random.between(1, 40))),
        // a difference that wraps round comes to posted
        6 => {
            let past = random.below(posted.max(1));
            (past, past.wrapping_sub(posted))
        }
        // a difference cut to so many bits comes to posted
        7 => (ever_posted.wrapping_add(1 << random.pick(&[8, 12, 13, 16, 32, 63])), ever_returned),
        _ => (random.any(), random.any()),
    };
    Record { ever_posted, ever_returned, ..record }
}

/// A record that is right but for its counts.
fn damaged(random: &mut Random, limit: u64) -> Record {
    let size = random.pick(&[32, 64, 4096]);
    let (queue, head, any) = (random.below(4), random.below(size), random.below(size));
    let posted = random.pick(&[0, 1, size - 1, any]);
    let record = Record { queue, size, head, limit, ..random.counted(posted) };
    disagreeing(random, record)
}

pub fn receive_disagrees(author: &mut Author) {
    let record = damaged(&mut author.random, 2048);
    author.rxset(record);
    receive_aims::all_calls(author);
}

pub fn transmit_disagrees(author: &mut Author) {
    let record = damaged(&mut author.random, 1518);
    author.txset(record);
    transmit_aims::all_calls(author);
}

/// The last slots that the count lets be posted, and the packets that still come in them.
pub fn last_posts(author: &mut Author) {
    if !author.sound(Direction::Receive) {
        return;
    }
    let random = &mut author.random;
    let room = random.below(5);
    let record = author.bench.rx.record;
    let posted = random.pick(&[record.posted, record.posted, 0, record.size - 2, record.size - 1]);
    author.rxset(record.with_posted(posted).with_count_room(room));
    for _ in 0..=room {
        let address = author.random.address(record.limit);
        author.say(format!("post {address}"));
    }
    if author.random.one_in(4) {
        receive_aims::refused_post(author);
    }
    for _ in 0..author.random.between(1, 4) {
        device_packet(author);
        take_or_poll(author);
    }
    author.say("post 4096");
    burst_aims::refused(author);
}

/// A send that the count has room for, or lacks it by little; then the same after a reclaim.
pub fn last_sends(author: &mut Author) {
    if !author.sound(Direction::Transmit) {
        return;
    }
    let frame = transmit_aims::frame(author);
    let random = &mut author.random;
    let send = match random.below(2) {
        0 => layouts::plain(random, frame),
        _ => layouts::segmented(random, frame),
    };
    let record = author.bench.tx.record;
    let slots = send.slots();
    let room = random.pick(&[0, slots - 1, slots - 1, slots, slots, slots + 1, 2 * slots]);
    let full = (record.size - 1).saturating_sub(random.pick(&[0, slots - 1, slots]));
    let posted = random.pick(&[record.posted, 0, full, full]);
    // now and then it is 2^32 that the count comes to
    let far = MOST_EVER - (1 << 32) + 1 + random.below(slots);
    let room = if random.one_in(4) { far } else { room };
    author.txset(record.with_posted(posted).with_count_room(room));
    if posted == full {
        author.say(format!("txcount {} {}", record.head, posted.min(slots)));
    }
    for _ in 0..3 {
        author.say(layouts::line(&send));
        mark_oldest(author);
        author.say("reclaim");
    }
    if author.random.one_in(2) {
        transmit_aims::refused(author);
    }
    if author.random.one_in(4) {
        transmit_aims::wrong_count(author);
    }
}
