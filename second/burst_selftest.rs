//! The burst's own checks: answers worked out by hand from 02's words, and slots examined counted
//! in a second way.

use crate::answers;
use crate::author::Random;
use crate::burst::{self, Burst, LENT};
use crate::receive;
use crate::record::{Judged, Record, Refusal};
use crate::selftest::Checks;

pub fn all(checks: &mut Checks) {
    refusals(checks);
    two_packets(checks);
    six_slots(checks);
    most_slots(checks);
    examined_twice(checks);
    lines(checks);
}

/// Packets, slots examined, head, posted and the number that stopped it; or the refusal's number.
type Outcome = Result<(u64, u64, u64, u64, u8), u8>;

fn outcome(judged: Judged<Burst>) -> Outcome {
    let burst = judged.map_err(|refusal| refusal.answer)?;
    let Record { head, posted, .. } = burst.record;
    let stop = burst.stop.err().map_or(0, |stop| stop.answer);
    Ok((burst.packets, burst.examined, head, posted, stop))
}

fn length(bytes: u64) -> u64 {
    bytes << 38
}

/// Size 32 and head 31, with three slots posted: a packet of 100 bytes in slot 31, one of 2,048 and
/// 52 bytes in slots 0 and 1. Slot 2 is stale: it has DD and EOP of the last lap.
fn three_slots() -> (Record, Vec<u64>) {
    let mut ring = vec![0; 64];
    ring[63] = length(100) | 3;
    ring[1] = length(2048) | 1;
    ring[3] = length(52) | 3;
    ring[5] = length(64) | 3;
    (Record { queue: 0, size: 32, head: 31, limit: 2048, ..Record::counted(5, 3) }, ring)
}

/// A burst on a list of sevens: what it gave, and the list after it.
fn on_sevens(record: Record, ring: &[u64], limit: u64, lent: usize) -> (Outcome, Vec<u64>) {
    let mut out = vec![7; lent];
    let judged = burst::burst(record, ring, &[0; 32], &mut out, limit);
    (outcome(judged), out)
}

fn refusals(checks: &mut Checks) {
    let (record, ring) = three_slots();
    let wrong = Record { head: 32, ..record };
    for (name, record, limit, lent, answer) in [
        ("limit 33", record, 33, 96, 10),
        ("limit 0", record, 0, 96, 10),
        ("95 lent", record, 32, 95, 1),
        ("97 lent", record, 32, 97, 1),
        ("1 before 10", record, 33, 95, 1),
        ("a wrong record", wrong, 32, 96, 1),
        ("a wrong record and limit", wrong, 0, 96, 1),
    ] {
        checks.equal(name, on_sevens(record, &ring, limit, lent), (Err(answer), vec![7; lent]));
    }
}

fn two_packets(checks: &mut Checks) {
    let (record, ring) = three_slots();
    let two = [31, 1, 100, 0, 2, 2100, 7, 7];
    for (name, limit, wanted, packets) in [
        ("two packets, then stale", 32, (2, 3, 2, 0, 4), 2),
        ("a limit past the packets", 3, (2, 3, 2, 0, 4), 2),
        ("stopped by the limit", 2, (2, 3, 2, 0, 0), 2),
        ("one of two packets", 1, (1, 1, 0, 2, 0), 1),
    ] {
        let (found, out) = on_sevens(record, &ring, limit, 96);
        checks.equal(name, found, Ok(wanted));
        checks.equal(name, &out[..3 * packets], &two[..3 * packets]);
        checks.equal(name, &out[3 * packets..], &vec![7; 96 - 3 * packets]);
    }
    let empty = record.with_posted(0);
    checks.equal("nothing posted", on_sevens(empty, &ring, 32, 96).0, Ok((0, 0, 31, 0, 4)));
    // the second packet's first slot is read, its second is not posted
    let two_posted = record.with_posted(2);
    checks.equal("past the posted", on_sevens(two_posted, &ring, 32, 96).0, Ok((1, 2, 0, 1, 4)));
    // a fourth slot that is posted and not written is read
    let (four, mut ring) = (record.with_posted(4), ring);
    ring[5] = 0;
    checks.equal("not written", on_sevens(four, &ring, 32, 96).0, Ok((2, 4, 2, 1, 4)));
    ring[5] = length(2049) | 3;
    checks.equal("wrong", on_sevens(four, &ring, 32, 96).0, Ok((2, 4, 2, 1, 5)));
}

/// A packet of six slots, then six whose last is wrong, not written or not posted: 6 x packets + 6,
/// and one less where the sixth is not read.
fn six_slots(checks: &mut Checks) {
    let mut ring = vec![0; 64];
    for slot in 0..12 {
        ring[2 * slot + 1] = length(10) | 1;
    }
    ring[11] = 3;
    ring[23] = 1;
    let record = Record { queue: 0, size: 32, head: 0, limit: 2048, ..Record::counted(5, 12) };
    checks.equal("sixth, wrong", on_sevens(record, &ring, 32, 96).0, Ok((1, 12, 6, 6, 5)));
    ring[23] = length(10) | 3;
    checks.equal("sixth, with data", on_sevens(record, &ring, 32, 96).0, Ok((1, 12, 6, 6, 5)));
    ring[23] = 2;
    checks.equal("sixth, not written", on_sevens(record, &ring, 32, 96).0, Ok((1, 12, 6, 6, 4)));
    ring[23] = 3;
    let eleven = record.with_posted(11);
    checks.equal("sixth, not posted", on_sevens(eleven, &ring, 32, 96).0, Ok((1, 11, 6, 5, 4)));
    let (found, out) = on_sevens(record, &ring, 2, 96);
    checks.equal("two packets of six", found, Ok((2, 12, 12, 0, 0)));
    checks.equal("told", &out[..7], &[0, 6, 50, 6, 6, 50, 7]);
}

/// 32 packets of six slots on a ring of 224: the most that a burst reads is 6 x 32.
fn most_slots(checks: &mut Checks) {
    let (mut ring, list) = (vec![0; 448], vec![0; 224]);
    for slot in 0..192 {
        ring[2 * slot + 1] = if slot % 6 == 5 { 3 } else { length(1024) | 1 };
    }
    let counted = Record::counted(5, 192);
    let record = Record { queue: 0, size: 224, head: 0, limit: 1024, ..counted };
    let found = |record, ring: &[u64], limit| {
        outcome(burst::burst(record, ring, &list, &mut [7; LENT as usize], limit))
    };
    checks.equal("32 of six", found(record, &ring, 32), Ok((32, 192, 192, 0, 0)));
    checks.equal("31 of six", found(record, &ring, 31), Ok((31, 186, 186, 6, 0)));
    let one_less = record.with_posted(191);
    checks.equal("6 x 31 + 5", found(one_less, &ring, 32), Ok((31, 191, 186, 5, 4)));
    ring[383] = 1;
    checks.equal("6 x 31 + 6", found(record, &ring, 32), Ok((31, 192, 186, 6, 5)));
    ring[383] = 0;
    checks.equal("6 x 31 + 6", found(record, &ring, 32), Ok((31, 192, 186, 6, 4)));
}

/// The slots that a take reads, seen from outside: a clear word 1 makes it answer 4 at that slot,
/// DD alone makes it answer 5, so the two differ exactly where it gets as far as that slot.
fn read_by_take(record: Record, ring: &[u64], list: &[u64]) -> u64 {
    let with = |slot: usize, word1: u64| {
        let mut other = ring.to_vec();
        other[2 * slot + 1] = word1;
        receive::take(record, &other, list).map_err(|refusal| refusal.answer)
    };
    (0..list.len()).filter(|slot| with(*slot, 0) != with(*slot, 1)).count() as u64
}

/// Packets of a few slots, with few that stop.
fn random_word1(random: &mut Random) -> u64 {
    let eop = |random: &mut Random| u64::from(random.one_in(3)) << 1;
    match random.below(24) {
        0 => random.next(),
        1 => length(random.below(2) * 1025) | 1 | eop(random),
        2 => 0,
        3 | 4 => 3,
        _ => length(random.between(1, 1024)) | 1 | eop(random),
    }
}

/// Bursts on random rings against plain takes, slots examined and all.
fn examined_twice(checks: &mut Checks) {
    let mut random = Random::new(100);
    for _ in 0..300 {
        let ring: Vec<u64> = (0..64).map(|_| random_word1(&mut random)).collect();
        let list = vec![4096; 32];
        let (head, posted) = (random.below(32), random.below(32));
        let limit = random.between(1, 12);
        let counted = random.counted(posted);
        let first = Record { queue: 0, size: 32, head, limit: 1024, ..counted };
        let (mut record, mut out) = (first, vec![9; LENT as usize]);
        let (mut wanted, mut examined, mut stop) = (Vec::new(), 0, 0);
        while wanted.len() < 3 * limit as usize && stop == 0 {
            examined += read_by_take(record, &ring, &list);
            match receive::take(record, &ring, &list) {
                Ok((after, packet)) => {
                    wanted.extend([record.head, packet.count, packet.total]);
                    record = after;
                }
                Err(Refusal { answer, .. }) => stop = answer,
            }
        }
        let packets = wanted.len() as u64 / 3;
        wanted.resize(LENT as usize, 9);
        let found = outcome(burst::burst(first, &ring, &list, &mut out, limit));
        checks.equal("takes", found, Ok((packets, examined, record.head, record.posted, stop)));
        checks.equal("the list", out, wanted);
        let bound = 6 * packets + if stop == 0 { 0 } else { 6 };
        checks.equal("the bound", examined <= bound, true);
    }
}

fn lines(checks: &mut Checks) {
    let said = |script: &str| answers(script.as_bytes()).0;
    let mut equal = |script: &str, wanted: &str| checks.equal(script, said(script), wanted.into());
    equal("burst 1 96", "burst 1 0 0 0 0 0 0 0\n");
    equal("rx 0 32 2048\nburst 33 96", "rx 0 0 32 0 0 0 0 2048\nburst 10 0 0 0 0 0 0 0\n");
    equal("rx 0 32 2048\nburst 1 96", "rx 0 0 32 0 0 0 0 2048\nburst 4 0 0 0 0 0 0 0\n");
    equal(
        "out 128 1\nburst 1 129\nout 1\nburst 1\nburst 1 96 0",
        "bad 1\nbad 2\nbad 3\nbad 4\nbad 5\n",
    );
    // the sum is of all 128 numbers: rotl(1, 7 x 127) is 2^57
    equal("out 0 1\nout 127 3\nburst 1 0", "burst 1 0 0 0 0 0 0 144115188075855875\n");
    // slot 0 alone, 64 bytes: 0, 1 and 64 are written, and in the sum rotl(1, 7 x 126) is 2^50,
    // rotl(64, 7 x 125) is 2^49
    let packet = "rxset 0 32 0 1 9 8 2048 64 32\nrxpoke 1 17592186044419\nburst 1 96\nburst 1 96";
    equal(packet, "burst 0 1 0 9 9 1 1 1688849860263936\nburst 4 1 0 9 9 0 0 1688849860263936\n");
}
