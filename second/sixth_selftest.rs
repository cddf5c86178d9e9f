//! The checks of packets of up to six slots: answers worked out by hand from 02's words, and every
//! row of seven slots judged in a second way.

use crate::answers;
use crate::receive::{self, Packet};
use crate::record::{Judged, Record};
use crate::selftest::Checks;

pub fn all(checks: &mut Checks) {
    sixth_slots(checks);
    fifth_slots(checks);
    branch_lines(checks);
    rows(checks);
}

const BUFFER: u64 = 1024;

/// Size 32 at head 29: a packet of six slots goes across the ring's end.
fn queue(posted: u64) -> Record {
    Record { queue: 0, size: 32, head: 29, limit: BUFFER, ..Record::counted(7, posted) }
}

/// A take of slots with these words 1. Each slot's address is 4096 x (its number + 1).
fn taken(words: &[u64], posted: u64) -> Judged<(Record, Packet)> {
    let (record, mut ring) = (queue(posted), vec![0; 64]);
    let list: Vec<u64> = (1..=32).map(|number| 4096 * number).collect();
    for (distance, word1) in words.iter().enumerate() {
        ring[2 * record.slot(distance as u64) + 1] = *word1;
    }
    receive::take(record, &ring, &list)
}

/// Slot count, total, head, posted and ever returned; or the refusal's number.
fn outcome(words: &[u64], posted: u64) -> Result<[u64; 5], u8> {
    let (record, packet) = taken(words, posted).map_err(|refusal| refusal.answer)?;
    let Record { head, posted, ever_returned, .. } = record;
    Ok([packet.count, packet.total, head, posted, ever_returned])
}

fn length(bytes: u64) -> u64 {
    bytes << 38
}

/// A full buffer, and the packet goes on.
const FULL: u64 = BUFFER << 38 | 1;
/// Length 0 and EOP.
const DUMMY: u64 = 3;

/// Five full buffers and then this word, as the last posted slot and with one behind it that would
/// end a packet.
fn sixth_slots(checks: &mut Checks) {
    let six = Ok([6, 5 * BUFFER, 3, 0, 13]);
    for (name, sixth, wanted) in [
        ("length 0 and EOP", DUMMY, six),
        ("length 0 without EOP", 1, Err(5)),
        ("a byte with EOP", length(1) | 3, Err(5)),
        ("a byte without EOP", length(1) | 1, Err(5)),
        ("full with EOP", length(BUFFER) | 3, Err(5)),
        ("full without EOP", FULL, Err(5)),
        ("too long with EOP", length(BUFFER + 1) | 3, Err(5)),
        ("too long without EOP", length(16_383) | 1, Err(5)),
        ("not written", 0, Err(4)),
        ("EOP and not written", 2, Err(4)),
        ("too long and not written", length(BUFFER + 1), Err(4)),
    ] {
        let words = [FULL, FULL, FULL, FULL, FULL, sixth, DUMMY];
        checks.equal(name, outcome(&words, 6), wanted);
        let one_left = wanted.map(|[count, total, head, _, back]| [count, total, head, 1, back]);
        checks.equal(name, outcome(&words, 7), one_left);
        checks.equal("a sixth that is not posted", outcome(&words, 5), Err(4));
    }
    let words = [FULL, FULL, FULL, FULL, FULL, DUMMY];
    let packet = taken(&words, 6).map(|(_, packet)| packet).unwrap_or_default();
    // slots 29, 30, 31, 0, 1 and 2
    checks.equal("addresses", packet.addresses, [30, 31, 32, 1, 2, 3].map(|slot| 4096 * slot));
    checks.equal("lengths", packet.lengths, [BUFFER, BUFFER, BUFFER, BUFFER, BUFFER, 0]);
}

/// Four slots and then this word, with a sixth behind it that ends the packet.
fn fifth_slots(checks: &mut Checks) {
    for (name, fifth, wanted) in [
        ("EOP", length(9) | 3, Ok([5, 49, 2, 1, 12])),
        ("a dummy", DUMMY, Ok([5, 40, 2, 1, 12])),
        ("data without EOP", length(9) | 1, Ok([6, 49, 3, 0, 13])),
        ("length 0 without EOP", 1, Err(5)),
        ("too long", length(BUFFER + 1) | 1, Err(5)),
        ("not written", length(9), Err(4)),
    ] {
        let on = length(10) | 1;
        let name = format!("fifth: {name}");
        checks.equal(&name, outcome(&[on, on, on, on, fifth, DUMMY], 6), wanted);
    }
}

/// The branch's packet as lines: five full buffers of 2,048 and an empty sixth, which is taken with
/// what its two words say; then the packet behind it.
fn branch_lines(checks: &mut Checks) {
    let set = "rxset 0 32 28 7 17 10 2048 64 32\n";
    let full: String =
        [57, 59, 61, 63, 1].map(|index| format!("rxpoke {index} {}\n", length(2048) | 1)).concat();
    // type 26, L2TAG1P and L3L4P; the tag in word 0 is 42
    let sixth = format!("rxpoke 2 {}\nrxpoke 3 {}\n", 42 << 16, 26u64 << 30 | 0b1111);
    let list: String =
        [28, 29, 30, 31, 0, 1].map(|slot| format!("rxlist {slot} {}\n", 100 + slot)).concat();
    let behind = format!("rxpoke 5 {}\n", length(60) | 3);
    let script = format!("{set}{list}{full}take\n{sixth}{behind}take\ntake\ntake");
    let none = " 0".repeat(31);
    let pairs = "128 2048 129 2048 130 2048 131 2048 100 2048 101 0";
    let fields = "42 0 1 1 1 1 0 0 0 0 0 0 1 1 0 26 3";
    let last = format!("1 60 0 60{} 1 1{}", " 0".repeat(12), " 0".repeat(13));
    let wanted = format!(
        "take 4 28 7 17 10{none}\n\
         take 0 2 1 17 16 6 10240 {pairs} {fields}\n\
         take 0 3 0 17 17 {last}\n\
         take 4 3 0 17 17{none}\n"
    );
    checks.equal("the branch's packet", answers(script.as_bytes()).0, wanted);
}

/// A slot in the words of 02: not written, or its length and whether it has EOP.
type Slot = Option<(u64, bool)>;

const SLOTS: [Slot; 7] = [
    None,
    Some((0, false)),
    Some((0, true)),
    Some((BUFFER, false)),
    Some((1, true)),
    Some((BUFFER + 1, false)),
    Some((BUFFER + 1, true)),
];

/// A slot with data that is not a packet's last.
fn goes_on(slot: &Slot) -> bool {
    matches!(slot, Some((1..=BUFFER, false)))
}

/// Whether these are the slots of one packet: one to five with data, then at most one of length 0,
/// and EOP on the last alone.
fn is_packet(slots: &[Slot]) -> bool {
    let Some((last, before)) = slots.split_last() else { return false };
    let ends = match last {
        Some((1..=BUFFER, true)) => before.len() < 5,
        Some((0, true)) => (1..=5).contains(&before.len()),
        _ => false,
    };
    ends && before.iter().all(goes_on)
}

/// The rule said of the row as a whole: 0 if its first slots are a packet; 4 if those that are
/// written, maybe none, can still become one; else 5.
fn judged_by_row(row: &[Slot]) -> Result<usize, u8> {
    let written = &row[..row.iter().take_while(|slot| slot.is_some()).count()];
    if let Some(count) = (1..=written.len()).find(|count| is_packet(&written[..*count])) {
        return Ok(count);
    }
    let unfinished = written.len() <= 5 && written.iter().all(goes_on);
    Err(if unfinished { 4 } else { 5 })
}

/// Every row of seven slots of these kinds, with each number of them posted.
fn rows(checks: &mut Checks) {
    let (mut ring, list) = (vec![0; 64], vec![0; 32]);
    let (mut differ, mut packets_of_six) = (0, 0);
    for number in 0..SLOTS.len().pow(7) {
        let mut row = [None; 7];
        for (distance, slot) in row.iter_mut().enumerate() {
            *slot = SLOTS[number / SLOTS.len().pow(distance as u32) % SLOTS.len()];
            let word1 = slot.map_or(0, |(bytes, eop)| length(bytes) | 1 | u64::from(eop) << 1);
            ring[2 * queue(0).slot(distance as u64) + 1] = word1;
        }
        for posted in 0..=row.len() {
            let found = receive::take(queue(posted as u64), &ring, &list);
            let found = found.map(|(_, packet)| packet.count as usize).map_err(|no| no.answer);
            differ += usize::from(found != judged_by_row(&row[..posted]));
            packets_of_six += usize::from(found == Ok(6));
        }
    }
    checks.equal("rows that differ", differ, 0);
    // one row of five slots with data and no EOP and a dummy, any seventh; with 6 or 7 posted
    checks.equal("rows with a packet of six", packets_of_six, 7 * 2);
}
