//! Random scripts: a weighted choice among aims, each a few lines long.

use crate::author::Author;
use crate::bad_lines;
use crate::interrupt::{LEAVE, MOST_INTERVAL, OFF, ON};
use crate::record::Direction;
use crate::{burst_aims, count_aims, ptype_aims, receive_aims, sixth_aims, transmit_aims};
use crate::{mailbox_aims, mailbox_read_aims, verdict_aims};

type Aim = fn(&mut Author);

/// How often each aim is taken, against the others.
const AIMS: [(u64, Aim); 57] = [
    (6, receive_aims::fresh),
    (24, receive_aims::refused_fresh),
    (20, receive_aims::post),
    (8, receive_aims::fill),
    (6, receive_aims::refused_post),
    (60, receive_aims::traffic),
    (55, receive_aims::damaged_write_back),
    (16, receive_aims::stale),
    (60, receive_aims::damaged),
    (30, receive_aims::look),
    (6, receive_aims::scribble),
    (34, burst_aims::ready),
    (20, burst_aims::refused),
    (12, burst_aims::traffic),
    (10, burst_aims::write),
    (20, count_aims::receive_disagrees),
    (12, count_aims::last_posts),
    (55, sixth_aims::fifth_and_sixth),
    (28, verdict_aims::one_type),
    (16, verdict_aims::any_type),
    (12, verdict_aims::more_slots),
    (6, transmit_aims::fresh),
    (20, transmit_aims::refused_fresh),
    (40, transmit_aims::plain),
    (40, transmit_aims::segmented),
    (40, transmit_aims::crowd),
    (230, transmit_aims::refused),
    (30, transmit_aims::muddled),
    (60, transmit_aims::reclaim),
    (12, transmit_aims::wrong_mark),
    (12, transmit_aims::wrong_count),
    (30, transmit_aims::fill),
    (55, transmit_aims::damaged),
    (30, transmit_aims::look),
    (6, transmit_aims::scribble),
    (20, count_aims::transmit_disagrees),
    (24, count_aims::last_sends),
    (120, interrupt),
    (40, ptype_aims::look_up),
    (10, ptype_aims::too_large),
    (24, mailbox_aims::asked),
    (16, mailbox_aims::send),
    (36, mailbox_aims::refused),
    (30, mailbox_aims::shutting),
    (50, mailbox_aims::muddled),
    (7, mailbox_aims::over_old_bytes),
    (20, mailbox_aims::fill),
    (60, mailbox_aims::damaged),
    (10, mailbox_aims::look),
    (16, mailbox_aims::scribble),
    (30, mailbox_read_aims::written),
    (10, mailbox_read_aims::each_flag),
    (16, mailbox_read_aims::each_opcode),
    (10, mailbox_read_aims::each_length),
    (16, mailbox_read_aims::traffic),
    (16, mailbox_read_aims::stale),
    (120, bad_lines::any),
];

/// A line of thousands of pieces is long, so these come once in so many aims.
const MANY_ONE_IN: u64 = 160;
const LONG_ONE_IN: u64 = 30_000;
/// Packets of six slots for the longest burst are some 210 lines.
const LONGEST_BURST_ONE_IN: u64 = 1_000;

pub fn generate(seed: u64, lines: usize) -> Vec<u8> {
    let mut author = Author::new(seed, lines);
    author.say(format!("# seed {seed}, {lines} lines"));
    bad_lines::long(&mut author);
    while !author.full() {
        any(&mut author);
        if author.random.one_in(MANY_ONE_IN) {
            transmit_aims::many(&mut author);
        }
        if author.random.one_in(LONGEST_BURST_ONE_IN) {
            burst_aims::longest(&mut author);
        }
        if author.random.one_in(LONG_ONE_IN) {
            bad_lines::long(&mut author);
        }
    }
    author.into_text()
}

/// One aim. A queue that answers 1 to everything, or whose count is about to end, is mostly started
/// afresh before it.
pub fn any(author: &mut Author) {
    let spent = |author: &Author, queue| !author.sound(queue) || author.near_the_end(queue);
    if spent(author, Direction::Receive) && !author.random.one_in(4) {
        receive_aims::fresh(author);
    }
    if spent(author, Direction::Transmit) && !author.random.one_in(4) {
        transmit_aims::fresh(author);
    }
    let whole: u64 = AIMS.iter().map(|(weight, _)| weight).sum();
    let mut chosen = author.random.below(whole);
    for (weight, aim) in AIMS {
        if chosen < weight {
            return aim(author);
        }
        chosen -= weight;
    }
}

/// An interrupt request: right, with one number past its end, or any numbers.
fn interrupt(author: &mut Author) {
    let random = &mut author.random;
    let mut vector = random.pick(&[0, 1, 2, 63, 64, 33]);
    if random.one_in(2) {
        vector = random.between(0, 64);
    }
    let enable = random.pick(&[OFF, ON, LEAVE]);
    let mut write_back = u64::from(enable == OFF && random.one_in(2));
    let (clear, trigger) = (random.below(2), random.below(2));
    let mut trigger_index = trigger * random.below(4);
    let mut index = random.below(4);
    let mut interval = match random.below(4) {
        _ if index == 3 => 0,
        0 => random.pick(&[0, 2, MOST_INTERVAL - 2, MOST_INTERVAL]),
        1 => 2 << random.below(12),
        _ => 2 * random.below(MOST_INTERVAL / 2 + 1),
    };
    match random.below(16) {
        0 => vector = random.pick(&[65, 66, 1 << 32, u64::MAX]),
        1 => trigger_index = random.pick(&[1, 2, 3, 4, 5, u64::MAX]),
        2 => index = random.pick(&[3, 4, 5, 1 << 32, u64::MAX]),
        3 => interval = random.pick(&[1, 3, 8159, 8161, 8162, 8192, 16_320, u64::MAX]),
        4 => write_back = 1,
        5 => interval = random.any(),
        _ => {}
    }
    author.say_padded(&format!(
        "int {vector} {enable} {write_back} {clear} {trigger} {trigger_index} {index} {interval}"
    ));
}
