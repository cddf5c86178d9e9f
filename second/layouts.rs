//! Sends to order: accepted ones, crowded ones, and ones with a single clause broken.

use crate::author::Random;
use crate::transmit::{Send, IPV4, IPV4_CHECKSUM, IPV6, IP_NONE, L4_NONE, SCTP, TCP, UDP};
use crate::transmit::{LEAST_MSS, MOST_HEADER, MOST_PIECE, MOST_TLEN};
use std::collections::BTreeSet;

/// The send as a script line.
pub fn line(send: &Send) -> String {
    let mut words: Vec<u64> = vec![
        send.token,
        send.ip,
        send.l4,
        send.mac,
        send.ip_length,
        send.l4_length,
        u64::from(send.vlan),
        send.tag,
        u64::from(send.segmented),
        send.mss,
        send.tlen,
        send.addresses.len() as u64,
        send.lengths.len() as u64,
    ];
    words.extend(&send.addresses);
    words.extend(&send.lengths);
    let words: Vec<String> = words.iter().map(u64::to_string).collect();
    format!("send {}", words.join(" "))
}

/// A number from `lower` to `upper` in steps, the ends more often.
fn stepped(random: &mut Random, lower: u64, upper: u64, step: u64) -> u64 {
    let steps = (upper - lower) / step;
    let chosen = match random.below(6) {
        0 => 0,
        1 => steps,
        2 => 1,
        3 => steps - 1,
        _ => random.between(0, steps),
    };
    lower + step * chosen
}

/// An offload request with lengths that are right for its kinds.
pub fn offload(random: &mut Random, ip: u64, l4: u64) -> Send {
    let mut send = Send { token: random.any(), ip, l4, ..Send::default() };
    if ip != IP_NONE {
        send.mac = stepped(random, 14, 254, 2);
        send.ip_length =
            if ip == IPV6 { stepped(random, 40, 508, 4) } else { stepped(random, 20, 60, 4) };
        send.l4_length = match l4 {
            TCP => stepped(random, 20, 60, 4),
            UDP => 8,
            SCTP => 12,
            _ => 0,
        };
    }
    if random.one_in(2) {
        send.vlan = true;
        send.tag = random.pick(&[0, 1, 65_535, 32_768]);
        if random.one_in(2) {
            send.tag = random.below(65_536);
        }
    }
    send
}

pub fn plain_offload(random: &mut Random) -> Send {
    let ip = random.below(4);
    let l4 = if ip == IP_NONE { L4_NONE } else { random.below(4) };
    offload(random, ip, l4)
}

/// A segmented request whose header is at most 512 and whose MSS and TLEN are in range.
pub fn segmented_offload(random: &mut Random, frame: u64) -> Send {
    let ip = random.pick(&[IPV6, IPV4_CHECKSUM]);
    let mut send = offload(random, ip, TCP);
    if send.header() > MOST_HEADER || random.one_in(12) {
        // the longest header allowed, or near it
        send.mac = random.pick(&[14, 16]);
        send.l4_length = 60;
        send.ip_length = if ip == IPV6 { random.pick(&[432, 436]) } else { 60 };
    }
    send.segmented = true;
    let most = frame - send.header() as u64;
    send.mss = match random.below(6) {
        0 => LEAST_MSS,
        1 => most,
        2 => LEAST_MSS + 1,
        3 => most - 1,
        _ => random.between(LEAST_MSS, most),
    };
    send.tlen = tlen(random, send.mss);
    send
}

fn tlen(random: &mut Random, mss: u64) -> u64 {
    let wanted = match random.below(12) {
        0 => 1,
        1 => mss - 1,
        2 => mss,
        3 => mss + 1,
        4 => MOST_TLEN - random.below(2),
        5 => 2 * mss,
        6 => 1 << random.below(18),
        7 => random.between(1, MOST_TLEN),
        _ => random.between(1, 6 * mss),
    };
    wanted.min(MOST_TLEN)
}

/// Lengths of the pieces that end at the cuts and at the total.
fn pieces(total: u64, cuts: &BTreeSet<u64>) -> Vec<u64> {
    let mut lengths = Vec::new();
    let mut start = 0;
    for cut in cuts.iter().chain(std::iter::once(&total)) {
        lengths.push(cut - start);
        start = *cut;
    }
    lengths
}

/// Adds cuts so that no piece is longer than a piece may be.
fn fill(total: u64, cuts: &mut BTreeSet<u64>) {
    let mut start = 0;
    while total - start > MOST_PIECE {
        let next = cuts.range(start + 1..).next().copied().unwrap_or(total);
        start = if next - start > MOST_PIECE { start + MOST_PIECE } else { next };
        if start < total {
            cuts.insert(start);
        }
    }
}

/// Gives the send pieces of these lengths, each at an address that is accepted.
pub fn lay(random: &mut Random, send: &mut Send, lengths: Vec<u64>) {
    send.addresses = lengths.iter().map(|length| random.address(*length)).collect();
    send.lengths = lengths;
}

/// Cuts `total` bytes into `count` pieces at random places (fewer if there is not the room).
pub fn cut(random: &mut Random, total: u64, count: u64) -> Vec<u64> {
    let mut cuts = BTreeSet::new();
    while (cuts.len() as u64) < count.min(total) - 1 {
        cuts.insert(random.between(1, total - 1));
    }
    pieces(total, &cuts)
}

/// A plain send that is accepted if there is room.
pub fn plain(random: &mut Random, frame: u64) -> Send {
    let mut send = plain_offload(random);
    lay_plain(random, &mut send, frame);
    send
}

/// Pieces for a plain send: a total from 17 (or the header, if longer) to the maximum frame.
pub fn lay_plain(random: &mut Random, send: &mut Send, frame: u64) {
    let least = (send.header().min(u128::from(frame)) as u64).max(17);
    let total = match random.below(5) {
        0 => least,
        1 => frame,
        2 => (least + 1).min(frame),
        3 => random.between(least, frame.min(least + 40)),
        _ => random.between(least, frame),
    };
    let count = random.pick(&[1, 1, 2, 3, 4, 5, 6, 7, 8, 8]);
    let lengths = cut(random, total, count);
    lay(random, send, lengths);
}

/// Cuts within and at the end of a header, so that it ends within the first `most` pieces.
fn header_cuts(random: &mut Random, header: u64, most: u64, cuts: &mut BTreeSet<u64>) {
    let inside = random.below(most);
    while (cuts.len() as u64) < inside {
        cuts.insert(random.between(1, header - 1));
    }
    if !random.one_in(3) {
        cuts.insert(header);
    }
}

/// Pieces for a segmented request whose numbers are in range: a few cuts at random.
pub fn lay_segmented(random: &mut Random, send: &mut Send) {
    let header = send.header() as u64;
    let total = header + send.tlen;
    let mut cuts = BTreeSet::new();
    header_cuts(random, header, 3, &mut cuts);
    for _ in 0..random.pick(&[0, 1, 2, 3, 5, 9, 20]) {
        cuts.insert(header + random.below(send.tlen));
    }
    cuts.remove(&0);
    fill(total, &mut cuts);
    let lengths = pieces(total, &cuts);
    lay(random, send, lengths);
}

pub fn segmented(random: &mut Random, frame: u64) -> Send {
    let mut send = segmented_offload(random, frame);
    lay_segmented(random, &mut send);
    send
}

#[derive(Clone, Copy, PartialEq, Eq)]
pub enum Place {
    First,
    Middle,
    Last,
}

/// A segmented send in which one segment touches exactly `target` pieces (at least 6) and the
/// others fewer: the target is the first, a middle or the last segment.
pub fn crowd(random: &mut Random, frame: u64, target: u64, place: Place) -> Send {
    let mut send = segmented_offload(random, frame);
    let most_segments = (MOST_TLEN / send.mss).min(12);
    let segments = random.between(3, most_segments);
    send.mss = send.mss.min(MOST_TLEN / segments);
    let short = random.between(12, send.mss);
    send.tlen = (segments - 1) * send.mss + short;
    let k = match place {
        Place::First => 0,
        Place::Middle => random.between(1, segments - 2),
        Place::Last => segments - 1,
    };
    let header = send.header() as u64;
    let total = header + send.tlen;
    let mut cuts = BTreeSet::new();
    header_cuts(random, header, 3, &mut cuts);
    if random.one_in(2) {
        cuts.insert(header + k * send.mss);
    }
    fill(total, &mut cuts);
    let begin = header + k * send.mss;
    let end = (begin + send.mss).min(total);
    send.lengths = pieces(total, &cuts);
    while send.touched()[k as usize] < target {
        cuts.insert(random.between(begin + 1, end - 1));
        send.lengths = pieces(total, &cuts);
    }
    let lengths = std::mem::take(&mut send.lengths);
    lay(random, &mut send, lengths);
    send
}

/// As many pieces as asked, nearly alike, after a header in a piece of its own; short addresses
/// keep the line short. A `narrow` one has twenty pieces of one byte late in the list: at least
/// ten of them fall into one segment.
pub fn many(random: &mut Random, count: u64, narrow: bool) -> Send {
    let mut send = offload(random, IPV4_CHECKSUM, TCP);
    send.segmented = true;
    let each = random.between(20, 63);
    // a segment that starts within a piece touches at most (MSS - 1) / each + 2 of them
    send.mss = if random.one_in(2) { LEAST_MSS } else { (6 * each + 1).max(LEAST_MSS) };
    let mut lengths = vec![each; count as usize];
    lengths[0] = send.header() as u64;
    if narrow {
        let late = count as usize * 3 / 4;
        for length in lengths[late..].iter_mut().take(20) {
            *length = 1;
        }
    }
    send.tlen = lengths[1..].iter().sum();
    send.addresses = lengths.iter().map(|_| random.between(1, 9)).collect();
    send.lengths = lengths;
    send
}

/// Breaks one clause of a plain send's offload request, by its ends.
pub fn spoil_plain_offload(random: &mut Random) -> Send {
    let mut send = plain_offload(random);
    match random.below(10) {
        0 => spoil_none(random, &mut send),
        1 => spoil_tag(random, &mut send),
        2 => send.mss = random.pick(&[1, 88, 1_460, u64::MAX]),
        3 => send.tlen = random.pick(&[1, 3_000, u64::MAX]),
        _ => {
            let l4 = random.below(4);
            let ip = random.between(1, 3);
            send = offload(random, ip, l4);
            spoil_header(random, &mut send);
        }
    }
    send
}

fn spoil_none(random: &mut Random, send: &mut Send) {
    *send = offload(random, IP_NONE, L4_NONE);
    match random.below(5) {
        0 => send.l4 = random.between(1, 3),
        1 => send.mac = random.pick(&[1, 14, 16]),
        2 => send.ip_length = random.pick(&[1, 20, 40]),
        3 => send.l4_length = random.pick(&[1, 8, 20]),
        _ => {
            send.l4 = TCP;
            send.l4_length = 20;
        }
    }
}

fn spoil_tag(random: &mut Random, send: &mut Send) {
    send.vlan = random.one_in(2);
    send.tag = if send.vlan {
        random.pick(&[65_536, 65_537, 131_072, u64::MAX])
    } else {
        random.pick(&[1, 65_535, 65_536, u64::MAX])
    };
}

/// One of the three lengths at, or one past, its ends, or off its unit.
fn spoil_header(random: &mut Random, send: &mut Send) {
    match random.below(3) {
        0 => send.mac = random.pick(&[0, 12, 13, 15, 253, 255, 256]),
        1 if send.ip == IPV6 => {
            send.ip_length = random.pick(&[0, 20, 36, 39, 41, 42, 506, 509, 510, 512]);
        }
        1 => send.ip_length = random.pick(&[0, 16, 19, 21, 22, 58, 61, 62, 64]),
        _ => {
            send.l4_length = match send.l4 {
                TCP => random.pick(&[0, 16, 19, 21, 22, 58, 61, 62, 64]),
                UDP => random.pick(&[0, 4, 7, 9, 12, 20]),
                SCTP => random.pick(&[0, 8, 11, 13, 16, 20]),
                _ => random.pick(&[1, 4, 8, 12, 20]),
            };
        }
    }
}

/// A segmented send with one clause of its offload request broken.
pub fn spoiled_segmented(random: &mut Random, frame: u64) -> Send {
    let mut send = segmented_offload(random, frame);
    match random.below(9) {
        0 => return header_too_late(random, send),
        1 => spoil_kinds(random, &mut send),
        2 => spoil_header(random, &mut send),
        3 => spoil_tag(random, &mut send),
        4 => long_header(random, &mut send),
        5 => send.tlen = random.pick(&[0, MOST_TLEN + 1]),
        6 => send.mss = random.pick(&[0, 1, LEAST_MSS - 1]),
        7 => send.mss = frame - send.header() as u64 + random.between(1, 2),
        _ => send.mss = random.pick(&[u64::MAX, 16_384, 65_536]),
    }
    let header = send.header() as u64;
    let mut cuts: BTreeSet<u64> = [header].into_iter().collect();
    fill(header + send.tlen, &mut cuts);
    cuts.remove(&0);
    cuts.remove(&(header + send.tlen));
    let lengths = pieces(header + send.tlen, &cuts);
    lay(random, &mut send, lengths);
    send
}

fn spoil_kinds(random: &mut Random, send: &mut Send) {
    match random.below(5) {
        0 => {
            send.ip = IP_NONE;
            send.l4 = L4_NONE;
            send.mac = 0;
            send.ip_length = 0;
            send.l4_length = 0;
        }
        1 => {
            send.ip = IPV4;
            send.ip_length = send.ip_length.min(60);
        }
        2 => {
            send.l4 = UDP;
            send.l4_length = 8;
        }
        3 => {
            send.l4 = SCTP;
            send.l4_length = 12;
        }
        _ => {
            send.l4 = L4_NONE;
            send.l4_length = 0;
        }
    }
}

/// A header above 512 with each of its parts in range.
fn long_header(random: &mut Random, send: &mut Send) {
    send.ip = IPV6;
    send.mac = random.pick(&[18, 20, 254]);
    send.l4_length = 60;
    send.ip_length = random.pick(&[436, 508]);
}

/// The header ends in the fourth piece, by one byte or more.
fn header_too_late(random: &mut Random, mut send: Send) -> Send {
    let header = send.header() as u64;
    let total = header + send.tlen;
    let mut cuts: BTreeSet<u64> = [header - 1].into_iter().collect();
    while cuts.len() < 3 {
        cuts.insert(random.between(1, header - 1));
    }
    if random.one_in(2) {
        cuts.insert(header);
    }
    fill(total, &mut cuts);
    let lengths = pieces(total, &cuts);
    lay(random, &mut send, lengths);
    send
}
