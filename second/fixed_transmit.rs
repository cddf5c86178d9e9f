//! The transmit and interrupt parts of the fixed script.

use crate::author::Author;
use crate::fixed::BEFORE;
use crate::interrupt::MOST_INTERVAL;
use crate::layouts::{self, line, Place};
use crate::record::{Record, FRAME, SIZE};
use crate::transmit::{Send, IPV4, IPV4_CHECKSUM, IPV6, IP_NONE, L4_NONE, SCTP, TCP, UDP};

const FAR: [u64; 3] = [u64::MAX, 1 << 63, 1 << 32];

pub fn all(author: &mut Author) {
    author.say("# transmit: before any queue");
    calls(author);
    fresh(author);
    damaged_records(author);
    papers_examples(author);
    plain_totals(author);
    piece_lengths(author);
    piece_addresses(author);
    header_lengths(author);
    kinds(author);
    tags_and_tokens(author);
    segmentation_numbers(author);
    header_ends(author);
    windows(author);
    many_pieces(author);
    room(author);
    reclaims(author);
    interrupts(author);
}

const PLAIN: &str = "send 77 0 0 0 0 0 0 0 0 0 0 1 1 4096 60";

fn calls(author: &mut Author) {
    author.say(PLAIN);
    for call in ["reclaim", "txtail", "txreg", "txsum"] {
        author.say(call);
    }
}

fn fresh(author: &mut Author) {
    author.say("# transmit: fresh queues");
    for queue in [0, 1, 2, 3, 4, 5].iter().chain(&FAR) {
        author.say(format!("tx {queue} 32 1518"));
        author.say("txreg");
    }
    let steps = (0..=SIZE.upper + 2 * SIZE.step).step_by(SIZE.step as usize);
    for size in steps.chain([31, 33, 48, 63, 65, 4095, 4097]).chain(FAR) {
        author.say(format!("tx 1 {size} 1518"));
        author.say("txsum");
    }
    let ends = [0, 17, FRAME.lower - 1, FRAME.lower, 1519, 9727, FRAME.upper, FRAME.upper + 1];
    for frame in ends.iter().chain(&FAR) {
        author.say(format!("tx 2 64 {frame}"));
    }
    for frame in (1510..9750).step_by(97) {
        author.say(format!("tx 3 96 {frame}"));
    }
}

fn damaged_records(author: &mut Author) {
    author.say("# transmit: records handed in");
    for size in [32, 64, 4064, 4096] {
        let counted = Record::counted(BEFORE, size / 2);
        let good = Record { queue: 1, size, head: size / 2, limit: 1518, ..counted };
        let mut records = Vec::new();
        for queue in [0, 3, 4, u64::MAX] {
            records.push(Record { queue, ..good });
        }
        for other in [0, 31, 32, 33, 4095, 4096, 4097, 4128, 8192, u64::MAX] {
            records.push(Record { size: other, ..good });
        }
        for number in [0, 1, size - 1, size, size + 1, u64::MAX - size + 1, u64::MAX] {
            records.push(Record { head: number, ..good });
            records.push(good.with_posted(number));
            records.push(Record { head: number, ..good.with_posted(number) });
        }
        for limit in [0, 1517, 1518, 9728, 9729, u64::MAX] {
            records.push(Record { limit, ..good });
        }
        for record in records {
            author.txset_lent(record, [2 * size, size, size]);
            calls(author);
        }
        lent_lengths(author, good);
    }
}

fn lent_lengths(author: &mut Author, good: Record) {
    let size = good.size;
    for ring in [0, size, 2 * size - 1, 2 * size + 1, 16_384] {
        author.txset_lent(good, [ring, size, size]);
        calls(author);
    }
    for list in [0, size - 1, size + 1, 8192] {
        author.txset_lent(good, [2 * size, list, size]);
        calls(author);
        author.txset_lent(good, [2 * size, size, list]);
        calls(author);
    }
}

/// A queue of 64 with nothing posted, the head going round from one send to the next.
fn set(author: &mut Author, frame: u64) {
    let head = (author.bench.tx.record.head + 5) % 64;
    author.txset(Record { queue: 2, size: 64, head, limit: frame, ..Record::counted(BEFORE, 0) });
}

/// Sends on an empty queue and sums what is lent, so that every written word is compared.
fn sent(author: &mut Author, frame: u64, send: &Send) {
    set(author, frame);
    author.say(line(send));
    author.say("txsum");
}

fn request(ip: u64, l4: u64, lengths: [u64; 3]) -> Send {
    let [mac, ip_length, l4_length] = lengths;
    Send { token: 5, ip, l4, mac, ip_length, l4_length, ..Send::default() }
}

/// Gives the send pieces of these lengths, at addresses from 0x10000 upward.
fn with(mut send: Send, lengths: &[u64]) -> Send {
    send.addresses = (0..lengths.len() as u64).map(|piece| 0x1_0000 * (piece + 1)).collect();
    send.lengths = lengths.to_vec();
    send
}

/// A segmented request with the header in the first piece and the payload in the second ones.
fn split(mut send: Send, mss: u64, tlen: u64) -> Send {
    send.segmented = true;
    send.mss = mss;
    send.tlen = tlen;
    let header = send.header() as u64;
    let mut lengths = if header > 0 { vec![header] } else { Vec::new() };
    let mut rest = tlen;
    while rest > 0 {
        lengths.push(rest.min(16_383));
        rest -= rest.min(16_383);
    }
    with(send, &lengths)
}

/// The request most used below: 14/20/20, IPv4 with checksum, TCP.
fn tcp() -> Send {
    request(IPV4_CHECKSUM, TCP, [14, 20, 20])
}

fn papers_examples(author: &mut Author) {
    author.say("# transmit: the paper's examples");
    let none = request(IP_NONE, L4_NONE, [0, 0, 0]);
    sent(author, 1518, &with(none.clone(), &[60]));
    sent(author, 1518, &with(tcp(), &[1000]));
    sent(author, 1518, &split(tcp(), 1460, 3000));
    sent(author, 1518, &with(none.clone(), &[17]));
    sent(author, 1518, &with(none, &[16]));
    for (pieces, tlen) in [(14, 2926), (7, 1463)] {
        let mut lengths = vec![54];
        lengths.extend(vec![209; pieces]);
        let send = Send { segmented: true, mss: 1460, tlen, ..tcp() };
        sent(author, 1518, &with(send, &lengths));
    }
    for mss in [87, 88, 89, 1463, 1464, 1465] {
        sent(author, 1518, &split(tcp(), mss, 300));
    }
}

fn plain_totals(author: &mut Author) {
    author.say("# transmit: plain totals");
    for frame in [1518, 1519, 4000, 9727, 9728] {
        for total in [1, 15, 16, 17, 18, 64, 1517, frame - 1, frame, frame + 1, 16_383] {
            for count in 1..=9 {
                let none = request(IP_NONE, L4_NONE, [0, 0, 0]);
                if total < count {
                    continue;
                }
                let mut lengths = vec![1; count as usize];
                lengths[(total % count) as usize] = total - (count - 1);
                sent(author, frame, &with(none, &lengths));
            }
        }
    }
}

fn piece_lengths(author: &mut Author) {
    author.say("# transmit: piece counts and lengths");
    let none = || request(IP_NONE, L4_NONE, [0, 0, 0]);
    for at in 0..3 {
        for length in [0, 1, 16_382, 16_383, 16_384, 65_536, u64::MAX, u64::MAX - 60, 1 << 63] {
            let mut lengths = vec![30, 30, 30];
            lengths[at] = length;
            sent(author, 9728, &with(none(), &lengths));
        }
    }
    for (addresses, lengths) in
        [(0, 0), (0, 1), (1, 0), (1, 2), (2, 1), (8, 9), (9, 8), (9, 9), (7, 8), (8, 8), (64, 1)]
    {
        for segmented in [false, true] {
            let mut send = Send { segmented, ..with(none(), &vec![30; lengths]) };
            send.addresses = vec![4096; addresses];
            sent(author, 9728, &send);
        }
    }
    for length in [16_382, 16_383, 16_384, 16_385] {
        let send = Send { segmented: true, mss: 1460, tlen: length, ..tcp() };
        sent(author, 1518, &with(send, &[54, length]));
    }
    for lengths in [[54, 0, 700], [54, 700, 0], [0, 54, 700]] {
        let send = Send { segmented: true, mss: 1460, tlen: 700, ..tcp() };
        sent(author, 1518, &with(send, &lengths));
        sent(author, 1518, &with(none(), &lengths));
    }
    for bit in 0..14 {
        // one long piece each: every bit of the length, set and clear
        for tlen in [1u64 << bit, 16_383 & !(1 << bit)] {
            sent(author, 1518, &split(tcp(), 1460, tlen));
        }
    }
}

fn piece_addresses(author: &mut Author) {
    author.say("# transmit: piece addresses");
    for length in [1u64, 20, 1000] {
        let end = 0u64.wrapping_sub(length);
        for address in [0, 1, end - 1, end, end.wrapping_add(1), u64::MAX - 1, u64::MAX] {
            for at in 0..3 {
                let mut lengths = [40, 40, 40];
                lengths[at] = length;
                let mut send = with(request(IP_NONE, L4_NONE, [0, 0, 0]), &lengths);
                send.addresses[at] = address;
                sent(author, 1518, &send);
            }
        }
    }
    for bit in 0..64 {
        for address in [1u64 << bit, (u64::MAX << 10) & !(1u64 << bit)] {
            let mut send = with(request(IP_NONE, L4_NONE, [0, 0, 0]), &[60]);
            send.addresses[0] = address;
            sent(author, 1518, &send);
        }
    }
}

/// Each of the three lengths past its ends on both sides, with each kind it depends on.
fn header_lengths(author: &mut Author) {
    author.say("# transmit: header lengths");
    for mac in (0..=30).chain(248..=260).chain(FAR) {
        sent(author, 1518, &with(request(IPV4, UDP, [mac, 20, 8]), &[700]));
    }
    for bytes in (0..=66).chain(FAR) {
        for ip in [IP_NONE, IPV4, IPV4_CHECKSUM] {
            sent(author, 1518, &with(request(ip, L4_NONE, [14, bytes, 0]), &[700]));
        }
    }
    for bytes in (36..=50).chain(500..=516).chain((60..500).step_by(20)).chain(FAR) {
        sent(author, 1518, &with(request(IPV6, SCTP, [14, bytes, 12]), &[900]));
    }
    for bytes in (0..=66).chain(FAR) {
        for l4 in [L4_NONE, TCP, SCTP, UDP] {
            sent(author, 1518, &with(request(IPV4_CHECKSUM, l4, [14, 20, bytes]), &[700]));
        }
    }
    for total in 51..=57 {
        sent(author, 1518, &with(tcp(), &[total]));
    }
    for total in [820, 821, 822, 823] {
        sent(author, 1518, &with(request(IPV6, TCP, [254, 508, 60]), &[total]));
    }
}

/// Each IP kind with each L4 kind, right lengths and other kinds' lengths, plain and segmented.
fn kinds(author: &mut Author) {
    author.say("# transmit: kinds");
    for ip in 0..4 {
        for l4 in 0..4 {
            for ip_length in [0, 20, 40, 60] {
                for l4_length in [0, 8, 12, 20] {
                    for mac in [0, 14] {
                        let send = request(ip, l4, [mac, ip_length, l4_length]);
                        sent(author, 1518, &with(send.clone(), &[300]));
                        author.say(line(&split(send, 500, 700)));
                    }
                }
            }
        }
    }
}

fn tags_and_tokens(author: &mut Author) {
    author.say("# transmit: tags and tokens");
    for vlan in [false, true] {
        for tag in [0, 1, 2, 4095, 65_534, 65_535, 65_536, 65_537, 131_072].iter().chain(&FAR) {
            let send = Send { vlan, tag: *tag, ..tcp() };
            sent(author, 1518, &with(send.clone(), &[500, 100]));
            author.say(line(&split(send, 500, 700)));
        }
    }
    for bit in 0..16 {
        for tag in [1 << bit, 65_535 & !(1 << bit)] {
            sent(author, 1518, &with(Send { vlan: true, tag, ..tcp() }, &[500, 100]));
        }
    }
    for bit in 0..64 {
        for token in [1u64 << bit, !(1u64 << bit)] {
            sent(author, 1518, &with(Send { token, ..tcp() }, &[500]));
            reclaimed(author);
        }
    }
}

/// The device marks the packet that stands alone in the queue, and it is reclaimed.
fn reclaimed(author: &mut Author) {
    let record = author.bench.tx.record;
    if record.posted == 0 {
        return;
    }
    let last = record.slot(record.posted - 1);
    let word = author.bench.tx.ring[2 * last + 1] | 15;
    author.say(format!("txpoke {} {word}", 2 * last + 1));
    author.say("reclaim");
}

fn segmentation_numbers(author: &mut Author) {
    author.say("# transmit: MSS and TLEN");
    for frame in [1518, 9728] {
        for header in [[14, 20, 20], [14, 60, 60], [254, 20, 20]] {
            let send = request(IPV4_CHECKSUM, TCP, header);
            let most = frame - send.header() as u64;
            for mss in [0, 1, 86, 87, 88, 89, most - 1, most, most + 1, most + 2, frame, 16_384] {
                sent(author, frame, &split(send.clone(), mss, 2000));
            }
        }
    }
    for mss in FAR {
        sent(author, 1518, &split(tcp(), mss, 2000));
    }
    for tlen in [0, 1, 2, 1459, 1460, 1461, 2920, 262_142, 262_143, 262_144, 262_145] {
        sent(author, 1518, &split(tcp(), 1460, tlen));
    }
    for bit in 0..18 {
        sent(author, 9728, &split(tcp(), 9674, 1 << bit));
        sent(author, 9728, &split(tcp(), 9674, 262_143 & !(1 << bit)));
    }
    for bit in 0..14 {
        for mss in [1u64 << bit, 9_600 | 1 << bit, 8191 & !(1 << bit)] {
            sent(author, 9728, &split(tcp(), mss, 5000));
        }
    }
    plain_with_numbers(author);
    wrapped_totals(author);
}

fn plain_with_numbers(author: &mut Author) {
    for number in [1, 88, 1460, 262_143].iter().chain(&FAR) {
        sent(author, 1518, &with(Send { mss: *number, ..tcp() }, &[500]));
        sent(author, 1518, &with(Send { tlen: *number, ..tcp() }, &[500]));
    }
}

/// Sums that would pass 64 bits: the total is compared in plain numbers.
fn wrapped_totals(author: &mut Author) {
    let good = split(tcp(), 1460, 1000);
    for other in [999, 1001, 0, u64::MAX] {
        sent(author, 1518, &Send { tlen: other, ..good.clone() });
    }
    let half = 1u64 << 63;
    let wrapped = [
        Send { mac: u64::MAX - 999 + 14, tlen: 2000, ..good.clone() },
        Send { mac: half + 14, ip_length: half + 20, ..good.clone() },
        Send { tlen: u64::MAX - 1054 + 1, ..good.clone() },
        Send { mac: half, tlen: half + 1020, ..good.clone() },
        Send { l4_length: u64::MAX, tlen: 1021, ..good.clone() },
    ];
    for send in wrapped {
        sent(author, 1518, &send);
    }
    // two lengths whose sum passes 64 bits back to a total that would do
    let lengths = [u64::MAX - 100, 161];
    sent(author, 1518, &with(request(IP_NONE, L4_NONE, [0, 0, 0]), &lengths));
}

/// The header ends in the first, second, third or fourth piece, mixed with payload or not; and at
/// most 512.
fn header_ends(author: &mut Author) {
    author.say("# transmit: where the header ends");
    let lists: [&[u64]; 12] = [
        &[154],
        &[54, 100],
        &[53, 101],
        &[55, 99],
        &[14, 20, 20, 100],
        &[14, 20, 21, 99],
        &[14, 20, 19, 101],
        &[14, 20, 10, 10, 100],
        &[1, 1, 52, 100],
        &[1, 1, 51, 101],
        &[1, 1, 152],
        &[51, 1, 1, 1, 100],
    ];
    for lengths in lists {
        let send = Send { segmented: true, mss: 88, tlen: 100, ..tcp() };
        sent(author, 1518, &with(send, lengths));
    }
    for header in [[14, 432, 60], [16, 436, 60], [18, 436, 60], [14, 440, 60], [254, 200, 60]] {
        let send = request(IPV6, TCP, header);
        sent(author, 1518, &split(send.clone(), 900, 1000));
        sent(author, 1518, &split(send, 1006, 1000));
    }
}

/// One segment that touches 6 to 10 pieces: the first, a middle or the last.
fn windows(author: &mut Author) {
    author.say("# transmit: segments that touch 6 to 10 pieces");
    for target in 6..=10 {
        for place in [Place::First, Place::Middle, Place::Last] {
            for turn in 0..8 {
                let frame = if turn % 2 == 0 { 1518 } else { 9728 };
                let send = layouts::crowd(&mut author.random, frame, target, place);
                sent(author, frame, &send);
            }
        }
    }
    cut_by_one(author);
}

/// A cut at, one before and one after a segment's end, eight pieces being there already.
fn cut_by_one(author: &mut Author) {
    for shift in [-2i64, -1, 0, 1, 2] {
        for segment in 0..4u64 {
            // header 54 in a piece of its own, four segments of 700, a long piece up to the window
            let begin = 700 * segment;
            let first = begin as i64 + shift;
            let mut lengths = vec![54];
            if first > 0 {
                lengths.push(first as u64);
            }
            lengths.extend([100; 7]);
            let used: u64 = lengths.iter().sum::<u64>() - 54;
            lengths.push(3500 - used);
            let send = Send { segmented: true, mss: 700, tlen: 3500, ..tcp() };
            sent(author, 1518, &with(send, &lengths));
        }
    }
}

/// Thousands of pieces. Short addresses keep these lines short.
fn many_pieces(author: &mut Author) {
    author.say("# transmit: thousands of pieces");
    let trials = [(4094, 0), (4094, 1), (4095, 0), (4093, 0), (4093, 1), (4093, 2)];
    for (turn, (count, posted)) in trials.iter().enumerate() {
        for narrow in [false, true] {
            let head = [0, 1, 2000, 4095, 17, 4000][turn];
            let counted = Record::counted(BEFORE, *posted);
            author.txset(Record { queue: 0, size: 4096, head, limit: 1518, ..counted });
            let send = layouts::many(&mut author.random, *count, narrow);
            author.say(line(&send));
            author.say("txtail");
            author.say("txsum");
            author.say(format!("txcount {head} {}", author.bench.tx.record.posted));
            reclaimed(author);
        }
    }
    for (addresses, lengths) in [(8192, 8192), (8192, 1), (0, 8192), (4094, 4095)] {
        let mut send = Send { segmented: true, mss: 88, tlen: 1, ..tcp() };
        send.addresses = vec![1; addresses];
        send.lengths = vec![1; lengths];
        author.say(line(&send));
    }
}

/// Sends that need exactly the room there is, one more, and the same one again after a reclaim.
fn room(author: &mut Author) {
    author.say("# transmit: room");
    for size in [32, 64, 4096] {
        for need in 1..=8u64 {
            for (posted, segmented) in
                [(size - 1 - need, false), (size - need, false), (size - 1 - need, true)]
            {
                let head = (need * 11) % size;
                let counted = Record::counted(BEFORE, posted);
                author.txset(Record { queue: 1, size, head, limit: 1518, ..counted });
                author.say(format!("txcount {head} {}", need));
                let send = match segmented {
                    false => with(tcp(), &vec![60; need as usize]),
                    true => cut_payload(need),
                };
                author.say(line(&send));
                author.say("txtail");
                let last = author.bench.tx.record.slot(need - 1);
                author.say(format!("txpoke {} 15", 2 * last + 1));
                author.say("reclaim");
                author.say(line(&send));
                author.say("txsum");
            }
        }
    }
}

/// A segmented send of so many pieces.
fn cut_payload(pieces: u64) -> Send {
    let send = Send { segmented: true, mss: 1000, tlen: 60 * pieces, ..tcp() };
    let mut lengths = vec![60; pieces as usize];
    lengths[0] += 54;
    with(send, &lengths)
}

fn reclaims(author: &mut Author) {
    author.say("# transmit: reclaim, each count and each nibble");
    for posted in [0, 1, 2, 30, 31] {
        for count in [0, 1, 2, posted, posted + 1, 32, 65_535] {
            for head in [0, 15, 31] {
                let counted = Record::counted(BEFORE, posted);
                author.txset(Record { queue: 0, size: 32, head, limit: 1518, ..counted });
                author.say(format!("txcount {head} {count}"));
                author.say(format!("txtoken {head} {}", 1000 * count + head));
                let last = (head + count.max(1) - 1) % 32;
                author.say(format!("txpoke {} 240", 2 * last + 1));
                author.say("reclaim");
                author.say(format!("txpoke {} 18446744073709551615", 2 * last + 1));
                author.say("reclaim");
            }
        }
    }
    for nibble in 0..16u64 {
        for rest in [0, u64::MAX << 4] {
            let counted = Record::counted(BEFORE, 5);
            author.txset(Record { queue: 0, size: 32, head: 30, limit: 1518, ..counted });
            author.say("txcount 30 4");
            author.say("txpoke 61 15");
            author.say(format!("txpoke 3 {}", rest | nibble));
            author.say("reclaim");
        }
    }
    every_count(author);
}

/// Counts with each bit set and clear, on the largest ring.
fn every_count(author: &mut Author) {
    for bit in 0..12 {
        for count in [1u64 << bit, 4095 & !(1 << bit)] {
            let counted = Record::counted(BEFORE, 4095);
            author.txset(Record { queue: 0, size: 4096, head: 9, limit: 1518, ..counted });
            author.say(format!("txcount 9 {count}"));
            let last = (9 + count - 1) % 4096;
            author.say(format!("txpoke {} 15", 2 * last + 1));
            author.say("reclaim");
            author.say("txtail");
            author.say(format!("txpoke {} 0", 2 * last + 1));
        }
    }
}

fn interrupts(author: &mut Author) {
    author.say("# interrupt words");
    for example in ["0 1 0 1 0 0 3 0", "0 1 0 1 0 0 0 100", "0 1 0 1 0 0 0 8160"] {
        author.say(format!("int {example}"));
    }
    author.say("int 0 1 0 1 0 0 0 8162");
    author.say("int 0 2 0 0 1 3 3 0");
    for vector in (0..=66).chain([255, 256]).chain(FAR) {
        author.say(format!("int {vector} 1 0 1 0 0 3 0"));
    }
    for enable in 0..3 {
        for flags in 0..8 {
            for trigger_index in 0..5 {
                for index in 0..5 {
                    let (wb, clear, trigger) = (flags & 1, flags >> 1 & 1, flags >> 2);
                    let start = format!("int 5 {enable} {wb} {clear} {trigger}");
                    author.say(format!("{start} {trigger_index} {index} 0"));
                    author.say(format!("{start} {trigger_index} {index} 2"));
                }
            }
        }
    }
    intervals(author);
}

fn intervals(author: &mut Author) {
    let mut all: Vec<u64> = (0..12).map(|bit| 2 << bit).collect();
    all.extend((0..12).map(|bit| 8190 & !(2 << bit)));
    all.extend([0, 1, 3, 8158, 8159, 8161, 8162, 8163, 8190, 8191, 8192, 16_320]);
    all.extend(FAR);
    all.extend([u64::MAX - 1, (1 << 63) + 2]);
    for interval in all {
        for index in 0..4 {
            author.say(format!("int 64 0 1 0 0 0 {index} {interval}"));
        }
    }
    for interval in (0..=MOST_INTERVAL + 40).step_by(34) {
        author.say(format!("int 1 1 0 1 0 0 1 {interval}"));
    }
    for far in FAR {
        author.say(format!("int 1 1 0 1 1 {far} 0 0"));
        author.say(format!("int 1 1 0 1 0 0 {far} 0"));
    }
}
