//! The program's own checks: the paper's examples, answer 8 against a count byte by byte, and those
//! of the burst, of the counts, of packets of six slots, of packet types, of verdicts and of the
//! mailbox.

use crate::author::Random;
use crate::interrupt;
use crate::layouts::{self, Place};
use crate::receive::{self, FIELD_NAMES};
use crate::record::{bits, Direction, Record};
use crate::segments;
use crate::transmit::{self, Lent, Send};
use crate::{aims, answers, compare, fixed};
use crate::{burst_selftest, count_selftest, mailbox_read_selftest, mailbox_selftest};
use crate::{ptype_selftest, sixth_selftest, verdict_selftest};
use std::process::exit;

pub struct Checks {
    made: usize,
    failed: usize,
}

impl Checks {
    pub fn equal<T: PartialEq + std::fmt::Debug>(&mut self, what: &str, found: T, wanted: T) {
        self.made += 1;
        if found != wanted {
            self.failed += 1;
            println!("FAILED {what}: found {found:?}, wanted {wanted:?}");
        }
    }
}

pub fn run() {
    let mut checks = Checks { made: 0, failed: 0 };
    words_of_the_paper(&mut checks);
    interrupts_of_the_paper(&mut checks);
    receive_of_the_paper(&mut checks);
    segments_of_the_paper(&mut checks);
    ends_of_the_paper(&mut checks);
    touched_twice(&mut checks);
    read_back(&mut checks);
    burst_selftest::all(&mut checks);
    count_selftest::all(&mut checks);
    sixth_selftest::all(&mut checks);
    ptype_selftest::all(&mut checks);
    verdict_selftest::all(&mut checks);
    mailbox_selftest::all(&mut checks);
    mailbox_read_selftest::all(&mut checks);
    script_lines(&mut checks);
    scripts(&mut checks);
    println!("selftest: {} checks, {} failed", checks.made, checks.failed);
    if checks.failed > 0 {
        exit(1);
    }
}

fn tcp() -> Send {
    Send {
        ip: transmit::IPV4_CHECKSUM,
        l4: transmit::TCP,
        mac: 14,
        ip_length: 20,
        l4_length: 20,
        ..Send::default()
    }
}

fn words_of_the_paper(checks: &mut Checks) {
    let none = Send::default();
    checks.equal("60 bytes plain", none.data_word(60, true), 0x0000_00F0_0000_0070);
    checks.equal("1,000 bytes TCP", tcp().data_word(1000, true), 0x0000_0FA1_4287_1670);
    checks.equal("context", transmit::context_word(3000, 1460), 0x16D0_02EE_0000_0011);
    let found = receive::fields(0, 0x0000_1006_8000_000B);
    for (name, value) in FIELD_NAMES.iter().zip(found) {
        let wanted = match *name {
            "DD" | "EOP" | "L3L4P" | "L3" | "L4" => 1,
            "PTYPE" => 26,
            "FAMILY" => 3,
            _ => 0,
        };
        checks.equal(name, value, wanted);
    }
    checks.equal("length", bits(0x0000_1006_8000_000B, 51, 38), 64);
}

fn interrupts_of_the_paper(checks: &mut Checks) {
    use interrupt::{word, Request, LEAVE, ON};
    let on = Request { enable: ON, clear: 1, ..Request::default() };
    let found = |request: Request| word(&request).map(|(_, word)| word).map_err(|no| no.answer);
    checks.equal("index 3", found(Request { index: 3, ..on }), Ok(0x1B));
    checks.equal("100", found(Request { interval: 100, ..on }), Ok(0x643));
    checks.equal("8,160", found(Request { interval: 8160, ..on }), Ok(0x1_FE03));
    checks.equal("8,162", found(Request { interval: 8162, ..on }), Err(9));
    let leave =
        Request { enable: LEAVE, trigger: 1, trigger_index: 3, index: 3, ..Request::default() };
    checks.equal("leave", found(leave), Ok(0x8700_001C));
    for (vector, offset) in [(0, 0x5C00), (1, 0x3800), (64, 0x38FC)] {
        let request = Request { vector, ..on };
        checks.equal("offset", word(&request).map(|(offset, _)| offset), Ok(offset));
    }
}

fn receive_of_the_paper(checks: &mut Checks) {
    let (mut ring, mut list) = (vec![0; 64], vec![0; 32]);
    let mut record = Record::fresh(Direction::Receive, 0, 32, 2048).unwrap_or_default();
    for post in 1..=31 {
        record = receive::post(record, &mut ring, &mut list, 4096 * post).unwrap_or_default();
    }
    checks.equal("tail after 31 posts", record.tail_value(Direction::Receive), Ok(31));
    let full = receive::post(record, &mut ring, &mut list, 4096).map_err(|no| no.answer);
    checks.equal("the 32nd post", full, Err(3));
    ring[1] = 2048 << 38 | 1;
    ring[3] = 100 << 38 | 3;
    let (after, packet) = receive::take(record, &ring, &list).unwrap_or_default();
    checks.equal("count", packet.count, 2);
    checks.equal("total", packet.total, 2148);
    checks.equal("addresses", packet.addresses, [4096, 8192, 0, 0, 0, 0]);
    checks.equal("head", after.head, 2);
    let again = receive::post(after, &mut ring, &mut list, 4096).unwrap_or_default();
    checks.equal("tail once more", again.tail_value(Direction::Receive), Ok(0));
}

/// The answer of a send on an empty queue of 64 with maximum frame 1,518.
fn answer(send: &Send) -> u8 {
    let (mut ring, mut tokens, mut counts) = (vec![0; 128], vec![0; 64], vec![0; 64]);
    let lent = &mut Lent { ring: &mut ring, tokens: &mut tokens, counts: &mut counts };
    let record = Record::fresh(Direction::Transmit, 0, 64, 1518).unwrap_or_default();
    match transmit::send(record, lent, send) {
        Ok(_) => 0,
        Err(refusal) => refusal.answer,
    }
}

fn segments_of_the_paper(checks: &mut Checks) {
    let mut send = Send { segmented: true, mss: 1460, tlen: 2926, ..tcp() };
    send.lengths = vec![209; 15];
    send.lengths[0] = 54;
    send.addresses = vec![4096; 15];
    checks.equal("14 pieces of 209", &send.touched()[..2], &[8, 9]);
    checks.equal("14 pieces of 209", answer(&send), 8);
    send.lengths.truncate(8);
    send.addresses.truncate(8);
    send.tlen = 1463;
    checks.equal("7 pieces of 209", answer(&send), 0);
}

fn ends_of_the_paper(checks: &mut Checks) {
    for (total, wanted) in [(17, 0), (16, 6)] {
        let send = Send { addresses: vec![1], lengths: vec![total], ..Send::default() };
        checks.equal("plain total", answer(&send), wanted);
    }
    for (mss, wanted) in [(88, 0), (87, 7)] {
        let lengths = vec![54, 100];
        let segmented = Send { segmented: true, mss, tlen: 100, ..tcp() };
        let send = Send { addresses: vec![1, 1], lengths, ..segmented };
        checks.equal("MSS", answer(&send), wanted);
    }
}

/// Both counts of touched pieces, on sends of every layout.
fn touched_twice(checks: &mut Checks) {
    let mut random = Random::new(8);
    for turn in 0..400 {
        let target = random.between(6, 10);
        let place = random.pick(&[Place::First, Place::Middle, Place::Last]);
        let send = match turn % 3 {
            0 => layouts::segmented(&mut random, 1518),
            1 => layouts::crowd(&mut random, 1518, target, place),
            _ => {
                let count = random.between(20, 60);
                let narrow = random.one_in(2);
                layouts::many(&mut random, count, narrow)
            }
        };
        if send.tlen > 20_000 {
            continue;
        }
        let header = send.header() as u64;
        let slow = segments::touched_by_bytes(&send.lengths, header, send.mss, send.tlen);
        checks.equal("touched", send.touched(), slow);
    }
}

/// The descriptors of an accepted send give back its pieces and its offload request.
fn read_back(checks: &mut Checks) {
    let mut random = Random::new(9);
    for turn in 0..400 {
        let send = match turn % 2 {
            0 => layouts::plain(&mut random, 9728),
            _ => layouts::segmented(&mut random, 9728),
        };
        let mut all = send.descriptors();
        if send.segmented {
            let [word0, word1] = all.remove(0);
            checks.equal("context word 0", word0, 0);
            checks.equal("TLEN", bits(word1, 47, 30), send.tlen);
            checks.equal("MSS", bits(word1, 63, 50), send.mss);
            checks.equal("context rest", bits(word1, 29, 0), 0x11);
        }
        let last = all.len() - 1;
        for (piece, [word0, word1]) in all.into_iter().enumerate() {
            checks.equal("address", word0, send.addresses[piece]);
            checks.equal("length", bits(word1, 47, 34), send.lengths[piece]);
            checks.equal("EOP and RS", bits(word1, 5, 4), if piece == last { 3 } else { 0 });
            checks.equal("request", request_of(word1), wanted_request(&send));
            checks.equal("fixed bits", word1 & 0xC94F, 0x40);
        }
    }
}

fn request_of(word1: u64) -> [u64; 7] {
    [
        bits(word1, 7, 7),
        bits(word1, 10, 9),
        bits(word1, 13, 12),
        2 * bits(word1, 22, 16),
        4 * bits(word1, 29, 23),
        4 * bits(word1, 33, 30),
        bits(word1, 63, 48),
    ]
}

fn wanted_request(send: &Send) -> [u64; 7] {
    let vlan = u64::from(send.vlan);
    [vlan, send.ip, send.l4, send.mac, send.ip_length, send.l4_length, send.tag]
}

fn script_lines(checks: &mut Checks) {
    let said = |script: &str| answers(script.as_bytes()).0;
    checks.equal("nothing", said(""), String::new());
    checks.equal("empty lines", said("\n\n# x\n"), String::new());
    checks.equal("bad numbers", said("\n\nx\n# x\n y"), "bad 3\nbad 5\n".to_string());
    checks.equal("no line end", said("rxsum"), "rxsum 0 0\n".to_string());
    checks.equal("carriage return", said("rxsum\r\n"), "bad 1\n".to_string());
    let fresh = "rx 0 3 32 0 0 0 0 1024\n".to_string();
    checks.equal("twenty digits", said("rx 3 00000000000000000032 1024"), fresh);
    checks.equal("twenty-one", said("rx 3 000000000000000000032 1024"), "bad 1\n".to_string());
    let sum = "rxset 0 0 0 0 0 0 0 2 1\nrxpoke 0 1\nrxpoke 1 2\nrxlist 0 9\nrxsum";
    checks.equal("sum", said(sum), "rxsum 130 9\n".to_string());
}

/// The same seed gives the same script; the fixed script has no gap; a difference is found.
fn scripts(checks: &mut Checks) {
    checks.equal("same seed", aims::generate(3, 500), aims::generate(3, 500));
    let script = fixed::script();
    let (out, bench) = answers(&script);
    checks.equal("gaps of the fixed script", bench.seen.table(false).1, 0);
    let (first, second) = (out.as_bytes(), out.replacen("post 0", "post 1", 1));
    checks.equal("equal outputs", compare::first_difference(&script, first, first), None);
    let found = compare::first_difference(&script, first, second.as_bytes());
    checks.equal("a difference", found.is_some(), true);
    let short = &first[..first.len() - 10];
    let found = compare::first_difference(&script, first, short);
    checks.equal("a cut output", found.is_some(), true);
}
