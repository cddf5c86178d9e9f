//! The mailbox's own checks of readings: every pair of flags and every opcode against 02's words
//! put another way, lengths and parts, the order of the causes, and whole lines worked out by hand.

use crate::answers;
use crate::author::Random;
use crate::mailbox::{self, Lent, Marks, Message, Post, Ring, Shutdown};
use crate::mailbox_read;
use crate::record::Direction::{self, Receive, Transmit};
use crate::selftest::Checks;

pub fn all(checks: &mut Checks) {
    every_flag(checks);
    every_opcode(checks);
    lengths(checks);
    orders(checks);
    fields(checks);
    round_trips(checks);
    completions(checks);
    messages(checks);
}

/// A slot as it stands, what the list keeps of it, and the bytes that are lent.
struct Slot {
    bytes: [u8; 32],
    kept: u32,
    lent: usize,
}

impl Slot {
    /// Opcode as posted or of a message, DD set, and these flags in byte 1, as they came and were
    /// posted.
    fn new(direction: Direction, came: u8, posted: u8) -> Slot {
        let mut bytes = [0; 32];
        let opcode: u16 = if direction == Transmit { 0x0801 } else { 0x0802 };
        bytes[..4].copy_from_slice(&[1, came, opcode as u8, (opcode >> 8) as u8]);
        let kept = if direction == Transmit { 0x0801 << 16 } else { 0 };
        Slot { bytes, kept: kept | u32::from(posted) << 8, lent: 0 }
    }

    fn of_length(mut self, length: u16, lent: usize) -> Slot {
        self.bytes[4..6].copy_from_slice(&length.to_le_bytes());
        self.lent = lent;
        self
    }

    /// The answer, and the length of the part.
    fn read(&self, direction: Direction) -> (u8, usize) {
        let record = Ring { size: 2, head: 1, posted: 1, shut: false };
        let mut ring = [0xFF; 64];
        ring[32..].copy_from_slice(&self.bytes);
        let buffer = vec![0; self.lent];
        let judged = mailbox_read::read(direction, record, &ring, &[u32::MAX, self.kept], &buffer);
        judged.map_or_else(|no| (no.answer, 0), |(_, reading)| (0, reading.part.len()))
    }
}

/// Byte 1 has a flag in each bit but its lowest: LB 2, RD 4, VFC 8, BUF 16, SI 32, EI 64, FE 128.
fn every_flag(checks: &mut Checks) {
    for came in 0..=255 {
        for posted in 0..=255 {
            let buf = came & 16 != 0;
            let done = if buf { (0, 0) } else { (0, 8) };
            let wanted = if came | 1 == posted | 1 { done } else { (5, 0) };
            let found = Slot::new(Transmit, came, posted).read(Transmit);
            checks.equal(&format!("completion {came:#x}, posted {posted:#x}"), found, wanted);
            // without BUF what came is completed by the posted BUF and LB
            let whole = if buf { came } else { came & !18 | posted & 18 };
            let wanted = if whole | 1 == posted | 1 { done } else { (5, 0) };
            let found = Slot::new(Receive, came, posted).read(Receive);
            checks.equal(&format!("message {came:#x}, posted {posted:#x}"), found, wanted);
        }
    }
}

/// One opcode is a message's, whatever was posted; a completion's is the posted one of two.
fn every_opcode(checks: &mut Checks) {
    let with = |direction: Direction, opcode: u16, posted: u16| {
        let mut slot = Slot::new(direction, 0, 0);
        slot.bytes[2..4].copy_from_slice(&opcode.to_le_bytes());
        slot.kept = u32::from(posted) << 16;
        slot.read(direction).0
    };
    for (posted, completions) in [(0x0801, 1), (0x0003, 1), (0x0802, 0), (0, 0), (0xFFFF, 0)] {
        let all =
            |direction| (0..=u16::MAX).filter(move |code| with(direction, *code, posted) == 0);
        let found: Vec<u16> = all(Transmit).collect();
        checks.equal("completions", found.len(), completions);
        checks.equal("as posted", found.iter().all(|opcode| *opcode == posted), true);
        checks.equal("messages", all(Receive).collect::<Vec<u16>>(), vec![0x0802]);
    }
    let as_posted: Vec<u16> =
        (0..=u16::MAX).filter(|code| with(Transmit, *code, *code) == 0).collect();
    checks.equal("commands", as_posted, vec![0x0003, 0x0801]);
}

fn lengths(checks: &mut Checks) {
    for direction in [Transmit, Receive] {
        for lent in [0, 1, 7, 8, 9, 512, 4095, 4096, 4097, 8192] {
            for length in (0..20).chain([511, 512, 513, 4095, 4096, 4097, 8192, 0x8000, 0xFFFF]) {
                let name = format!("{length} of {lent}");
                let long = usize::from(length);
                let part = if long <= lent && long <= 4096 { (0, long) } else { (11, 0) };
                let found = Slot::new(direction, 16, 16).of_length(length, lent).read(direction);
                checks.equal(&name, found, part);
                let cookie = if length == 0 { (0, 8) } else { (11, 0) };
                let found = Slot::new(direction, 0, 0).of_length(length, lent).read(direction);
                checks.equal(&format!("{name} without BUF"), found, cookie);
            }
        }
    }
}

/// Each set of causes: what is lent, nothing posted, DD, the opcode, a flag, the length.
fn orders(checks: &mut Checks) {
    for direction in [Transmit, Receive] {
        for number in 0..64u32 {
            let broken = |place: usize| number >> place & 1 == 1;
            let order = [(0, 1), (1, 4), (2, 4), (3, 5), (4, 5), (5, 11)];
            let wanted =
                order.iter().find(|(place, _)| broken(*place)).map_or(0, |(_, answer)| *answer);
            let mut slot = Slot::new(direction, 16, 16).of_length(6, 6);
            slot.bytes[0] = if broken(2) { 0xFE } else { 0xFF };
            slot.bytes[1] ^= if broken(4) { 64 } else { 0 };
            slot.bytes[2] ^= if broken(3) { 1 } else { 0 };
            slot.bytes[4] += if broken(5) { 1 } else { 0 };
            let posted = if broken(1) { 0 } else { 1 };
            let record = Ring { size: 2, head: 0, posted, shut: broken(5) };
            let ring = [slot.bytes, [0; 32]].concat();
            let list = vec![slot.kept; if broken(0) { 3 } else { 2 }];
            let judged = mailbox_read::read(direction, record, &ring, &list, &[0; 6]);
            let found = judged.err().map_or(0, |refusal| refusal.answer);
            checks.equal(&format!("causes {number:06b}"), found, wanted);
        }
    }
}

/// Bits of the return value and the cookie at their places, and bits that say nothing.
fn fields(checks: &mut Checks) {
    for direction in [Transmit, Receive] {
        for bit in 0..256 {
            let mut slot = Slot::new(direction, 0, 0);
            slot.bytes[bit / 8] ^= 1 << (bit % 8);
            let record = Ring { size: 2, head: 0, posted: 1, shut: false };
            let ring = [slot.bytes, [0; 32]].concat();
            let judged = mailbox_read::read(direction, record, &ring, &[slot.kept, 0], &[]);
            let found = judged.map_err(|refusal| refusal.answer).map(|(record, reading)| {
                let cookie = u64::from_le_bytes(reading.cookie);
                (record.head, reading.error, reading.value, cookie, reading.part == &ring[8..16])
            });
            let said = |error, value, cookie| Ok((1, error, value, cookie, true));
            let wanted = match bit {
                0 => Err(4),
                2 => said(true, 0, 0),
                // CMP, VFE and the reserved flags
                1 | 3..=8 => said(false, 0, 0),
                9 | 12 if direction == Receive => {
                    if bit == 9 {
                        said(false, 0, 0)
                    } else {
                        Err(5)
                    }
                }
                9..=31 => Err(5),
                32..=47 => Err(11),
                48..=63 => said(false, 1 << (bit - 48), 0),
                64..=127 => said(false, 0, 1 << (bit - 64)),
                _ => said(false, 0, 0),
            };
            checks.equal(&format!("bit {bit}"), found, wanted);
        }
    }
}

/// Any call that is accepted on this ring: the record after it, and the cookie that it stored.
fn stored(
    random: &mut Random,
    direction: Direction,
    record: Ring,
    lent: &mut Lent,
) -> (Ring, [u8; 8]) {
    let (buf, cookie) = (random.one_in(2), random.next().to_le_bytes());
    let length = if buf { random.between(0, 4096) } else { 0 };
    let marks = Marks { si: random.one_in(2), ei: random.one_in(2), fe: random.one_in(2) };
    let (address, bytes) = (random.address(4096), length as usize);
    let (stored, cookie) = match random.below(4) {
        _ if direction == Receive => {
            let (si, ei, length) = (marks.si, marks.ei, length.max(1));
            let post = Post { length, address, lent: 4096, si, ei };
            (mailbox::post(record, lent, &post), [0; 8])
        }
        0 => {
            let shutdown = Shutdown { unloading: buf, marks, cookie };
            (mailbox::shut_down(record, lent, &shutdown), cookie)
        }
        _ => {
            let message = Message { buf, length, address, lent: bytes, marks, cookie };
            (mailbox::send(record, lent, &message), cookie)
        }
    };
    (stored.unwrap_or_default(), cookie)
}

/// What a call stored, completed by a device that sets DD and CMP and of a message the opcode,
/// comes back with 0, its own cookie and its part.
fn round_trips(checks: &mut Checks) {
    let mut random = Random::new(32);
    let buffer: Vec<u8> = (0..8192).map(|_| random.next() as u8).collect();
    for _ in 0..500 {
        let direction = random.pick(&[Transmit, Receive]);
        let size = random.between(2, 9);
        let record = Ring { size, head: random.below(size), posted: 0, shut: false };
        let (mut ring, mut list) = (vec![7; 32 * size as usize], vec![7; size as usize]);
        let lent = &mut Lent { ring: &mut ring, list: &mut list };
        let (after, cookie) = stored(&mut random, direction, record, lent);
        let place = 32 * record.head as usize;
        ring[place] |= 3;
        if direction == Receive {
            ring[place + 2..place + 4].copy_from_slice(&[2, 8]);
        }
        let read = mailbox_read::read(direction, after, &ring, &list, &buffer);
        let (end, reading) = read.unwrap_or_default();
        let long = u16::from_le_bytes([ring[place + 4], ring[place + 5]]);
        let with_buf = ring[place + 1] & 16 != 0;
        let part = if with_buf { &buffer[..usize::from(long)] } else { &cookie };
        let head = (record.head + 1) % size;
        checks.equal("end", end, Ring { head, shut: after.shut, ..record });
        checks.equal("cookie", reading.cookie, cookie);
        checks.equal("BUF", reading.buf, with_buf);
        checks.equal("part", reading.part, part);
    }
}

fn equal(checks: &mut Checks, script: &str, wanted: &str) {
    checks.equal(script, answers(script.as_bytes()).0, wanted.to_string());
}

/// A direct send and one of two bytes. The sum of 1 to 8 is that of the cookie's bytes in their
/// order; that of 65 and 66 is 65 x 128 xor 66.
fn completions(checks: &mut Checks) {
    let bytes = "mbuf 0 65\nmbuf 1 66\nmbuf 2 67\nmtx 2\n";
    let done = "mtx 0 2 0 0 0\n";
    let zeros = "0 0 0 0 0 0 0";
    let direct = "msend 0 0 0 0 0 0 0 578437695752307201\nmdone 0\n\
        mtxpoke 0 5\nmtxpoke 7 2\nmdone 0\nmdone 0";
    let sum = (1..=8).fold(0u64, |sum, byte| sum.rotate_left(7) ^ byte);
    equal(
        checks,
        &format!("{bytes}{direct}"),
        &format!(
            "{done}msend 0 0 1 0\nmdone 4 0 1 0 {zeros}\n\
             mdone 0 1 0 0 2049 1 512 578437695752307201 0 8 {sum}\nmdone 4 1 0 0 {zeros}\n"
        ),
    );
    let sent = "msend 1 2 4096 2 0 0 0 9\nmtxpoke 0 3\nmdone 1\n\
        mtxpoke 1 16\nmdone 2\nmtxpoke 1 20\nmdone 3";
    equal(
        checks,
        &format!("{bytes}{sent}"),
        &format!(
            "{done}msend 0 0 1 0\nmdone 11 0 1 0 {zeros}\nmdone 5 0 1 0 {zeros}\n\
             mdone 0 1 0 0 2049 0 0 9 1 2 8386\n"
        ),
    );
    let shut = "mshut 1 1 0 0 1\nmtxpoke 0 1\nmdone 0\nmsend 0 0 0 0 0 0 0 0";
    equal(
        checks,
        &format!("{bytes}{shut}"),
        // the sum of 1 and seven zeros is 2^49
        &format!(
            "{done}mshut 0 0 1 1\nmdone 0 1 0 1 3 0 0 1 0 8 562949953421312\nmsend 12 1 0 1\n"
        ),
    );
}

/// A message of three bytes, and one in the cookie: posted with LB and BUF, it has neither.
fn messages(checks: &mut Checks) {
    let bytes = "mbuf 0 65\nmbuf 1 66\nmbuf 2 67\nmrx 2\nmpost 600 4096 600 1 0\n";
    let done = "mrx 0 2 0 0\nmpost 0 0 1\n";
    let zeros = "0 0 0 0 0 0";
    let part = "mrxpoke 0 1\nmread 600\nmrxpoke 2 2\nmrxpoke 3 8\nmread 599\n\
        mrxpoke 4 3\nmrxpoke 5 0\nmread 2\nmread 3";
    // 8386 x 128 xor 67
    equal(
        checks,
        &format!("{bytes}{part}"),
        &format!(
            "{done}mread 5 0 1 {zeros}\nmread 11 0 1 {zeros}\nmread 11 0 1 {zeros}\n\
             mread 0 1 0 0 0 0 1 3 1073475\n"
        ),
    );
    let direct = "mrxpoke 0 5\nmrxpoke 1 32\nmrxpoke 2 2\nmrxpoke 3 8\nmread 600\n\
        mrxpoke 4 0\nmrxpoke 5 0\nmrxpoke 15 1\nmread 0";
    equal(
        checks,
        &format!("{bytes}{direct}"),
        &format!("{done}mread 11 0 1 {zeros}\nmread 0 1 0 1 0 72057594037927936 0 8 1\n"),
    );
}
