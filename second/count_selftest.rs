//! The counts' own checks: answers worked out by hand from 02's words, the line on posted judged in
//! a second way, and what each line of a long script moves them by.

use crate::author::Random;
use crate::bench::Bench;
use crate::record::{Direction, Record, MOST_EVER};
use crate::selftest::Checks;
use crate::{aims, answers, script};

pub fn all(checks: &mut Checks) {
    receive_lines(checks);
    transmit_lines(checks);
    disagreeing(checks);
    judged_twice(checks);
    last_posts(checks);
    last_sends(checks);
    tried_again(checks);
    tallies(checks);
}

fn said(script: &str) -> String {
    answers(script.as_bytes()).0
}

fn equal(checks: &mut Checks, script: &str, wanted: &str) {
    checks.equal(script, said(script), wanted.to_string());
}

/// Every receive line that has a record, with the counts right after posted.
fn receive_lines(checks: &mut Checks) {
    equal(checks, "rx 2 64 1024", "rx 0 2 64 0 0 0 0 1024\n");
    equal(checks, "rxset 0 32 0 2 9 7 2048 64 32\nrx 4 32 1024", "rx 1 0 0 0 0 0 0 0\n");
    let set = "rxset 0 32 31 2 9 7 2048 64 32";
    equal(checks, &format!("{set}\npost 4096"), "post 0 31 3 10 7\n");
    equal(checks, &format!("{set}\npost 0"), "post 2 31 2 9 7\n");
    let none = " 0".repeat(31);
    equal(checks, &format!("{set}\ntake"), &format!("take 4 31 2 9 7{none}\n"));
    // slots 31 and 0 hold a packet of 100 and 60 bytes
    let set = format!("{set}\nrxpoke 63 27487790694401\nrxpoke 1 16492674416643");
    let packet = format!("2 160 0 100 0 60{} 1 1{}", " 0".repeat(10), " 0".repeat(13));
    equal(checks, &format!("{set}\ntake"), &format!("take 0 1 0 9 9 {packet}\n"));
    let burst = said(&format!("{set}\nburst 1 96"));
    checks.equal("burst", burst.starts_with("burst 0 1 0 9 9 1 2 "), true);
}

fn transmit_lines(checks: &mut Checks) {
    equal(checks, "tx 2 64 1518", "tx 0 2 64 0 0 0 0 1518\n");
    equal(checks, "txset 0 32 0 2 9 7 1518 64 32 32\ntx 0 33 1518", "tx 1 0 0 0 0 0 0 0\n");
    let set = "txset 0 32 31 2 9 7 1518 64 32 32";
    equal(checks, &format!("{set}\n{ONE}"), "send 0 31 3 10 7 1\n");
    equal(checks, &format!("{set}\n{TWO}"), "send 0 31 5 12 7 3\n");
    equal(checks, &format!("{set}\nreclaim"), "reclaim 5 31 2 9 7 0 0\n");
    let set = format!("{set}\ntxcount 31 2\ntxtoken 31 6\ntxpoke 1 15");
    equal(checks, &format!("{set}\nreclaim"), "reclaim 0 1 0 9 9 6 2\n");
}

/// A plain send of one slot, and a segmented one of two pieces: three slots with its context.
const ONE: &str = "send 1 0 0 0 0 0 0 0 0 0 0 1 1 4096 60";
const TWO: &str = "send 1 3 1 14 20 20 0 0 1 1000 66 2 2 4096 4096 60 60";

/// Posted, ever posted and ever returned, and whether a record with them is accepted.
fn disagreeing(checks: &mut Checks) {
    for (posted, ever_posted, ever_returned, right) in [
        (0, 0, 0, true),
        (31, 31, 0, true),
        (2, 9, 7, true),
        (2, 8, 7, false),
        (2, 10, 7, false),
        (0, 7, 9, false),
        (2, 7, 9, false),
        (2, 0, 0, false),
        (0, 9, 9, true),
        (0, MOST_EVER, MOST_EVER, true),
        (31, MOST_EVER, MOST_EVER - 31, true),
        (31, MOST_EVER, MOST_EVER - 30, false),
        (31, 0, MOST_EVER - 30, false),
        (1, 0, MOST_EVER, false),
        (2, 1, MOST_EVER, false),
        (2, (1 << 32) + 2, 0, false),
        (0, MOST_EVER, 0, false),
        (0, 0, MOST_EVER, false),
    ] {
        let counts = Record { posted, ever_posted, ever_returned, ..Record::default() };
        let name = format!("posted {posted}, counts {ever_posted} and {ever_returned}");
        for (direction, limit) in [(Direction::Receive, 2048), (Direction::Transmit, 1518)] {
            let record = Record { queue: 0, size: 32, head: 3, limit, ..counts };
            let found = record.judge(direction).map_err(|refusal| refusal.answer);
            checks.equal(&name, found, if right { Ok(()) } else { Err(1) });
        }
    }
}

/// The line on posted as a difference that may be below 0.
fn judged_twice(checks: &mut Checks) {
    let mut random = Random::new(101);
    for _ in 0..2_000 {
        let posted = random.below(32);
        let mut record =
            Record { queue: 0, size: 32, head: 0, limit: 2048, ..random.counted(posted) };
        match random.below(4) {
            0 => record.ever_posted = record.ever_posted.wrapping_add(random.below(3)),
            1 => record.ever_returned = record.ever_returned.wrapping_sub(random.below(3)),
            2 => record.ever_posted = random.any(),
            _ => {}
        }
        let difference = i128::from(record.ever_posted) - i128::from(record.ever_returned);
        let right = difference == i128::from(record.posted);
        checks.equal("judged twice", record.judge(Direction::Receive).is_ok(), right);
    }
}

/// The end of the count, with room on the ring.
fn last_posts(checks: &mut Checks) {
    let (last, before) = (MOST_EVER, MOST_EVER - 1);
    equal(
        checks,
        &format!("rxset 0 32 0 0 {before} {before} 2048 64 32\npost 4096\npost 4096\npost 0"),
        &format!(
            "post 0 0 1 {last} {before}\n\
             post 3 0 1 {last} {before}\n\
             post 2 0 1 {last} {before}\n"
        ),
    );
    equal(checks, "rxset 0 32 0 31 40 9 2048 64 32\npost 4096", "post 3 0 31 40 9\n");
    let set = format!("rxset 0 32 31 1 {last} {before} 2048 64 32\nrxpoke 63 16492674416643");
    equal(
        checks,
        &format!("{set}\nburst 9 96\npost 4096"),
        &format!("burst 4 0 0 {last} {last} 1 1 {OUT_SUM}\npost 3 0 0 {last} {last}\n"),
    );
}

/// A plain send of one slot and a segmented one of three, with count room for two, three and four.
fn last_sends(checks: &mut Checks) {
    for (room, answer) in [(2, 3), (3, 0), (4, 0)] {
        let ever = MOST_EVER - room;
        let set = format!("txset 0 32 4 0 {ever} {ever} 1518 64 32 32");
        let wanted = match answer {
            0 => format!("send 0 4 3 {} {ever} 3\n", ever + 3),
            _ => format!("send 3 4 0 {ever} {ever} 0\n"),
        };
        equal(checks, &format!("{set}\n{TWO}"), &wanted);
        equal(checks, &format!("{set}\n{ONE}"), &format!("send 0 4 1 {} {ever} 1\n", ever + 1));
    }
    let (last, returned) = (MOST_EVER, MOST_EVER - 2);
    let set = format!("txset 0 32 4 2 {last} {returned} 1518 64 32 32\ntxcount 4 2\ntxpoke 11 15");
    equal(
        checks,
        &format!("{set}\n{ONE}\nreclaim\n{ONE}"),
        &format!(
            "send 3 4 2 {last} {returned} 0\n\
             reclaim 0 6 0 {last} {last} 0 2\n\
             send 3 6 0 {last} {last} 0\n"
        ),
    );
}

/// One packet told at the list's beginning: slot 31, 1 slot and 60 bytes. In the sum they are moved
/// on by 7 x 127, 7 x 126 and 7 x 125 bits.
const OUT_SUM: u64 =
    31u64.rotate_left(7 * 127) ^ 1u64.rotate_left(7 * 126) ^ 60u64.rotate_left(7 * 125);

/// A send refused with 3: reclaiming makes room on the ring and none in the count.
fn tried_again(checks: &mut Checks) {
    let numbers = |script: &str| -> Vec<String> {
        let words = |line: &str| line.split(' ').take(2).collect::<Vec<_>>().join(" ");
        said(script).lines().map(words).collect()
    };
    let reclaim = "txcount 4 3\ntxpoke 13 15\nreclaim";
    for (room, wanted) in [(3, "send 0"), (2, "send 3")] {
        let ever = MOST_EVER - room;
        let set = format!("txset 0 32 4 31 {ever} {} 1518 64 32 32", ever - 31);
        let found = numbers(&format!("{set}\n{TWO}\n{reclaim}\n{TWO}"));
        checks.equal(
            "tried again",
            found,
            ["send 3", "reclaim 0", wanted].map(String::from).into(),
        );
    }
}

/// Over a long script: a call moves the counts by the slots that its line says were posted or came
/// back, and by nothing else.
fn tallies(checks: &mut Checks) {
    let text = aims::generate(101, 6_000);
    let (mut bench, mut out, mut moved) = (Bench::new(), String::new(), [0; 2]);
    for (index, line) in script::lines(&text).enumerate() {
        let before = [bench.rx.record, bench.tx.record];
        out.clear();
        bench.line(index + 1, line, &mut out);
        let words: Vec<&str> = out.trim_end().split(' ').collect();
        let number = |place: usize| words[place].parse::<u64>().unwrap_or(MOST_EVER);
        let (queue, posted, returned) = match words[0] {
            "post" => (0, u64::from(number(1) == 0), 0),
            "take" => (0, 0, number(6)),
            "burst" => (0, 0, before[0].posted - number(3)),
            "send" => (1, number(6), 0),
            "reclaim" => (1, 0, number(7)),
            _ => continue,
        };
        let Record { ever_posted, ever_returned, .. } = before[queue];
        let wanted = (ever_posted + posted, ever_returned + returned);
        checks.equal("tally", (number(4), number(5)), wanted);
        moved[queue] += posted + returned;
    }
    checks.equal("tallied", moved.iter().all(|slots| *slots > 1_000), true);
}
