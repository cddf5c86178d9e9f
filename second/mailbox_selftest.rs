//! The mailbox's own checks of what is stored and refused: elements typed out byte by byte, each
//! set of causes against a list of their order, and whole lines worked out by hand.

use crate::answers;
use crate::author::Random;
use crate::bench::Bench;
use crate::mailbox::{self, Lent, Marks, Message, Post, Ring, Shutdown};
use crate::record::Judged;
use crate::selftest::Checks;

pub fn all(checks: &mut Checks) {
    elements(checks);
    addresses(checks);
    lengths(checks);
    orders(checks);
    records(checks);
    lent_lengths(checks);
    elsewhere(checks);
    shut_for_good(checks);
    lines(checks);
    kept(checks);
    memory(checks);
    bad_lines(checks);
}

const ADDRESS: u64 = 0x0102_0304_0506_0708;
const COOKIE: [u8; 8] = [0xC0, 0xC1, 0xC2, 0xC3, 0xC4, 0xC5, 0xC6, 0xC7];

/// A send that asks for these flags, as the line has them: BUF, SI, EI, FE.
fn message(flags: [u8; 4], length: u64) -> Message {
    let [buf, si, ei, fe] = flags.map(|flag| flag == 1);
    let marks = Marks { si, ei, fe };
    Message { buf, length, address: ADDRESS, lent: 8192, marks, cookie: COOKIE }
}

fn shutdown(unloading: u8, flags: [u8; 3]) -> Shutdown {
    let [si, ei, fe] = flags.map(|flag| flag == 1);
    Shutdown { unloading: unloading == 1, marks: Marks { si, ei, fe }, cookie: COOKIE }
}

fn post(length: u64, si: u8, ei: u8) -> Post {
    Post { length, address: ADDRESS, lent: 8192, si: si == 1, ei: ei == 1 }
}

/// A call on a ring and its list, both of old bytes.
type Call<'a> = &'a dyn Fn(Ring, &mut Lent) -> Judged<Ring>;

/// What a ring of 3 of old bytes looks like after a call: the record or the answer, the three
/// slots in hexadecimal, and the list.
fn after(record: Ring, call: Call) -> (Result<Ring, u8>, Vec<String>, Vec<u32>) {
    let (mut ring, mut list) = (vec![0xEE; 96], vec![0x1234_5678; 3]);
    let judged = call(record, &mut Lent { ring: &mut ring, list: &mut list });
    let text = |slot: &[u8]| slot.iter().map(|byte| format!("{byte:02x}")).collect::<String>();
    let slots = ring.chunks(32).map(text).collect();
    (judged.map_err(|refusal| refusal.answer), slots, list)
}

const OLD: &str = "eeeeeeeeeeeeeeeeeeeeeeeeeeeeeeeeeeeeeeeeeeeeeeeeeeeeeeeeeeeeeeee";

/// The element stands in slot 0 behind a posted slot 2; what the list keeps is its first bytes.
fn stored(checks: &mut Checks, name: &str, call: Call, wanted: [&str; 3], kept: u32) {
    let record = Ring { size: 3, head: 2, posted: 1, shut: false };
    let shut = name.starts_with("shutdown");
    let (found, slots, list) = after(record, call);
    checks.equal(name, found, Ok(Ring { posted: 2, shut, ..record }));
    checks.equal(name, slots, vec![wanted.concat(), OLD.to_string(), OLD.to_string()]);
    checks.equal(name, list, vec![kept, 0x1234_5678, 0x1234_5678]);
}

/// Bytes 0 to 7, the cookie with the parameters, and the address with its high half first, each
/// half from its lowest byte on.
fn elements(checks: &mut Checks) {
    let (cookie, none) = ("c0c1c2c3c4c5c6c70000000000000000", "0000000000000000");
    let (address, unloading) = ("0403020108070605", "c0c1c2c3c4c5c6c70100000000000000");
    for (name, flags, length, first, address, kept) in [
        ("no BUF", [0, 0, 0, 0], 0, "0000010800000000", none, 0x0801_0000),
        ("no BUF, SI", [0, 1, 0, 0], 0, "0020010800000000", none, 0x0801_2000),
        ("no BUF, EI", [0, 0, 1, 0], 0, "0040010800000000", none, 0x0801_4000),
        ("no BUF, FE", [0, 0, 0, 1], 0, "0080010800000000", none, 0x0801_8000),
        ("BUF of 0", [1, 0, 0, 0], 0, "0010010800000000", address, 0x0801_1000),
        ("BUF of 1", [1, 0, 0, 0], 1, "0014010801000000", address, 0x0801_1400),
        ("BUF of 512", [1, 0, 0, 0], 512, "0014010800020000", address, 0x0801_1400),
        ("BUF of 513", [1, 0, 0, 0], 513, "0016010801020000", address, 0x0801_1600),
        ("BUF of 4,096", [1, 1, 1, 1], 4096, "00f6010800100000", address, 0x0801_F600),
    ] {
        let call = |record, lent: &mut Lent| mailbox::send(record, lent, &message(flags, length));
        stored(checks, name, &call, [first, cookie, address], kept);
    }
    for (name, stays, flags, first, behind, kept) in [
        ("shutdown", 0, [0, 0, 0], "0000030000000000", cookie, 0x0003_0000),
        ("shutdown, unloading", 1, [0, 1, 0], "0040030000000000", unloading, 0x0003_4000),
        ("shutdown, all flags", 1, [1, 1, 1], "00e0030000000000", unloading, 0x0003_E000),
    ] {
        let call =
            |record, lent: &mut Lent| mailbox::shut_down(record, lent, &shutdown(stays, flags));
        stored(checks, name, &call, [first, behind, none], kept);
    }
    let empty = "00000000000000000000000000000000";
    for (name, length, si, ei, first, kept) in [
        ("post of 1", 1, 0, 0, "0010000001000000", 0x1000),
        ("post of 512, SI", 512, 1, 0, "0030000000020000", 0x3000),
        ("post of 513, EI", 513, 0, 1, "0052000001020000", 0x5200),
        ("post of 4,096, both", 4096, 1, 1, "0072000000100000", 0x7200),
    ] {
        let call = |record, lent: &mut Lent| mailbox::post(record, lent, &post(length, si, ei));
        stored(checks, name, &call, [first, empty, address], kept);
    }
}

fn answer(judged: Judged<Ring>) -> u8 {
    judged.err().map_or(0, |refusal| refusal.answer)
}

const OPEN: Ring = Ring { size: 3, head: 0, posted: 0, shut: false };

/// The answers of a send and of a receive post, on an empty ring.
fn answers_of(message: &Message) -> [u8; 2] {
    let (mut ring, mut list) = (vec![0; 96], vec![0; 3]);
    let lent = &mut Lent { ring: &mut ring, list: &mut list };
    let Message { length, address, lent: bytes, .. } = *message;
    let post = Post { length, address, lent: bytes, ..Post::default() };
    [answer(mailbox::send(OPEN, lent, message)), answer(mailbox::post(OPEN, lent, &post))]
}

fn addresses(checks: &mut Checks) {
    let most = u64::MAX;
    for (length, address, wanted) in [
        (0, 0, [2, 11]),
        (0, 1, [0, 11]),
        (0, most, [0, 11]),
        (1, 0, [2, 2]),
        (1, 1, [0, 0]),
        (1, most, [0, 0]),
        (2, most - 1, [0, 0]),
        (2, most, [2, 2]),
        (4096, most - 4095, [0, 0]),
        (4096, most - 4094, [2, 2]),
        (4096, most, [2, 2]),
    ] {
        let asked = Message { address, ..message([1, 0, 0, 0], length) };
        checks.equal(&format!("{length} at {address}"), answers_of(&asked), wanted);
    }
    for address in [0, 1, most] {
        let asked = Message { address, ..message([0, 0, 0, 0], 0) };
        checks.equal(&format!("no BUF at {address}"), answers_of(&asked)[0], 0);
    }
}

/// What is lent, BUF, the length, and the answers of a send and a receive post.
fn lengths(checks: &mut Checks) {
    for (lent, buf, length, wanted) in [
        (0, 0, 0, [0, 11]),
        (0, 1, 0, [0, 11]),
        (0, 1, 1, [11, 11]),
        (1, 1, 1, [0, 0]),
        (1, 1, 2, [11, 11]),
        (8192, 0, 1, [11, 0]),
        (511, 1, 512, [11, 11]),
        (4095, 1, 4096, [11, 11]),
        (4096, 1, 4096, [0, 0]),
        (4096, 1, 4097, [11, 11]),
        (4097, 1, 4097, [11, 11]),
        (8192, 1, 4096, [0, 0]),
        (8192, 1, 4097, [11, 11]),
        (8192, 1, 65_536, [11, 11]),
        (8192, 1, 65_537, [11, 11]),
        (8192, 1, (1 << 32) + 1, [11, 11]),
        (8192, 0, 65_536, [11, 11]),
        (8192, 1, u64::MAX, [11, 11]),
    ] {
        let asked = Message { lent, address: 4096, ..message([buf, 0, 0, 0], length) };
        checks.equal(&format!("{length} of {lent}, BUF {buf}"), answers_of(&asked), wanted);
    }
}

/// Each set of causes: the answer is the first of the list, and nothing moved.
fn orders(checks: &mut Checks) {
    for number in 0..32u32 {
        let broken = |place: usize| number >> place & 1 == 1;
        let first = |order: &[(usize, u8)]| {
            order.iter().find(|(place, _)| broken(*place)).map_or(0, |(_, answer)| *answer)
        };
        let posted = if broken(4) { 2 } else { 1 };
        let record = Ring { size: 3, head: 1, posted, shut: broken(1) };
        let record = if broken(0) { Ring { head: 3, ..record } } else { record };
        let length = if broken(2) { 4097 } else { 5 };
        let address = if broken(3) { 0 } else { 4096 };
        let asked = Message { address, ..message([1, 0, 0, 0], length) };
        let posting = Post { length, address, lent: 8192, ..Post::default() };
        let calls: [(&str, u8, Call); 3] = [
            ("send", first(&[(0, 1), (1, 12), (2, 11), (3, 2), (4, 3)]), &|record, lent| {
                mailbox::send(record, lent, &asked)
            }),
            ("shutdown", first(&[(0, 1), (1, 12), (4, 3)]), &|record, lent| {
                mailbox::shut_down(record, lent, &shutdown(1, [0; 3]))
            }),
            ("post", first(&[(0, 1), (2, 11), (3, 2), (4, 3)]), &|record, lent| {
                mailbox::post(record, lent, &posting)
            }),
        ];
        for (name, wanted, call) in calls {
            let name = format!("{name}, causes {number:05b}");
            let (found, slots, list) = after(record, call);
            checks.equal(&name, found.err().unwrap_or(0), wanted);
            if wanted != 0 {
                let same = (vec![OLD.to_string(); 3], vec![0x1234_5678; 3]);
                checks.equal(&name, (slots, list), same);
            }
        }
    }
}

/// Size, head, posted, and the tail of those that are accepted.
fn records(checks: &mut Checks) {
    let most = u64::MAX;
    for (size, head, posted, tail) in [
        (0, 0, 0, None),
        (1, 0, 0, Some(0)),
        (1, 0, 1, None),
        (1, 1, 0, None),
        (2, 1, 1, Some(0)),
        (2, 0, 2, None),
        (2, 2, 0, None),
        (3, 2, 2, Some(1)),
        (1023, 0, 1022, Some(1022)),
        (1023, 1022, 1022, Some(1021)),
        (1023, 1022, 1, Some(0)),
        (1023, 1023, 0, None),
        (1023, 0, 1023, None),
        (1024, 0, 0, None),
        (most, 0, 0, None),
        (4, most, 1, None),
        (4, 0, most, None),
        (4, 3, most - 2, None),
        (4, most - 3, 3, None),
    ] {
        let record = Ring { size, head, posted, shut: false };
        for record in [record, Ring { shut: true, ..record }] {
            checks.equal(&format!("tail of {record:?}"), record.tail_value().ok(), tail);
        }
    }
    for (size, right) in [(0, false), (1, true), (1023, true), (1024, false), (most, false)] {
        let record = Ring { size, ..Ring::default() };
        let wanted = if right { Ok(record) } else { Err(1) };
        checks.equal("fresh", Ring::fresh(size).map_err(|no| no.answer), wanted);
    }
}

/// 32 bytes and one number a slot, no more and no less.
fn lent_lengths(checks: &mut Checks) {
    for size in [1, 2, 1023] {
        let record = Ring { size, ..Ring::default() };
        let (bytes, numbers) = (32 * size as usize, size as usize);
        for ring in [0, numbers, bytes - 32, bytes - 1, bytes, bytes + 1, bytes + 32] {
            for list in [0, numbers - 1, numbers, numbers + 1, bytes] {
                let found = mailbox::judge_lent(&record, &vec![0; ring], &vec![0; list]);
                let right = ring == bytes && list == numbers;
                checks.equal("lent", found.is_ok(), right);
            }
        }
    }
}

/// Random calls on random rings: nothing but one slot and its number is written, and by an
/// accepted call alone.
fn elsewhere(checks: &mut Checks) {
    let mut random = Random::new(105);
    for _ in 0..2000 {
        let size = random.between(1, 7);
        let (head, posted) = (random.below(size), random.below(size));
        let record = Ring { size, head, posted, shut: random.one_in(4) };
        let old: Vec<u8> = (0..32 * size).map(|_| random.between(1, 255) as u8).collect();
        let kept: Vec<u32> = (0..size).map(|_| 0xFFFF_FFFF).collect();
        let (mut ring, mut list) = (old.clone(), kept.clone());
        let lent = &mut Lent { ring: &mut ring, list: &mut list };
        let flags = [0; 4].map(|_| random.below(2) as u8);
        let length = random.pick(&[0, 0, 1, 600, 4097]);
        let judged = match random.below(3) {
            0 => mailbox::send(record, lent, &message(flags, length)),
            1 => mailbox::shut_down(record, lent, &shutdown(1, [0; 3])),
            _ => mailbox::post(record, lent, &post(length, 0, 0)),
        };
        let tail = (head + posted) % size;
        let changed: Vec<u64> =
            (0..size).filter(|slot| list[*slot as usize] != kept[*slot as usize]).collect();
        let bytes: Vec<usize> = (0..old.len()).filter(|at| ring[*at] != old[*at]).collect();
        let within = bytes.iter().all(|at| *at as u64 / 32 == tail);
        checks.equal("bytes elsewhere", within, true);
        checks.equal("slots", changed, if judged.is_ok() { vec![tail] } else { vec![] });
        checks.equal("bytes", bytes.is_empty(), judged.is_err());
    }
}

/// Once a shutdown is accepted every send and shutdown is 12 until a fresh ring, whatever comes
/// between; and none is before it.
fn shut_for_good(checks: &mut Checks) {
    let mut random = Random::new(12);
    let (mut bench, mut said, mut shut) = (Bench::new(), String::new(), false);
    for number in 1..4000 {
        let line = match random.below(24) {
            0 => format!("mtx {}", random.between(2, 9)),
            1 => format!("mshut {} 0 0 0 7", random.below(2)),
            2..=7 => format!("mtxpoke {} {}", 32 * random.below(9), random.between(2, 3)),
            8..=12 => "mdone 64".to_string(),
            13 => "mtxtail".to_string(),
            14 => "mrx 4".to_string(),
            15 => "mpost 5 4096 64 0 0".to_string(),
            _ => format!("msend {} 0 4096 64 0 0 0 {number}", random.below(2)),
        };
        said.clear();
        bench.line(number, line.as_bytes(), &mut said);
        let words: Vec<&str> = said.split_whitespace().collect();
        match words.as_slice() {
            ["mtx", "0", ..] => shut = false,
            ["msend" | "mshut", "1", ..] => {}
            ["msend" | "mshut", answer, _, _, flag] => {
                checks.equal(&line, *answer == "12", shut);
                shut |= line.starts_with("mshut") && *answer == "0";
                checks.equal(&line, *flag == "1", shut);
            }
            ["mdone", _, _, _, flag, ..] => checks.equal(&line, *flag == "1", shut),
            _ => {}
        }
    }
}

fn equal(checks: &mut Checks, script: &str, wanted: &str) {
    checks.equal(script, answers(script.as_bytes()).0, wanted.to_string());
}

/// Whole lines, before any ring and on fresh ones.
fn lines(checks: &mut Checks) {
    equal(
        checks,
        "mtxtail\nmtxreg\nmrxtail\nmrxreg",
        "mtxtail 1 0\nmtxreg 1 0\nmrxtail 1 0\nmrxreg 1 0\n",
    );
    equal(checks, "msend 0 0 0 0 0 0 0 0\nmshut 0 0 0 0 0", "msend 1 0 0 0\nmshut 1 0 0 0\n");
    equal(checks, "mdone 0\nmread 0", "mdone 1 0 0 0 0 0 0 0 0 0 0\nmread 1 0 0 0 0 0 0 0 0\n");
    equal(checks, "mpost 1 1 1 0 0\nmtxsum\nmrxsum", "mpost 1 0 0\nmtxsum 0 0\nmrxsum 0 0\n");
    equal(checks, "mtx 5\nmtxreg\nmtxtail", "mtx 0 5 0 0 0\nmtxreg 0 33792\nmtxtail 0 0\n");
    equal(checks, "mrx 5\nmrxreg\nmrxtail", "mrx 0 5 0 0\nmrxreg 0 28672\nmrxtail 0 0\n");
    // a refused fresh ring leaves zeros, and what was lent stays lent: byte 2 of the shutdown is 3,
    // and rotl(3, 7 x 61) is 3 x 2^43; of the list rotl(3 x 2^16, 7) is 3 x 2^23
    let poked = "mtx 2\nmtxpoke 63 9\nmtxlist 1 7\nmshut 0 0 0 0 0\nmtx 1024\nmtxsum";
    equal(
        checks,
        poked,
        "mtx 0 2 0 0 0\nmshut 0 0 1 1\nmtx 1 0 0 0 0\nmtxsum 26388279066633 25165831\n",
    );
    let set = "mtxset 3 2 1 1 96 3\nmtxtail\nmsend 0 0 0 0 0 0 0 0\nmshut 0 0 0 0 0\nmtx 3";
    equal(checks, set, "mtxtail 0 0\nmsend 12 2 1 1\nmshut 12 2 1 1\nmtx 0 3 0 0 0\n");
    equal(checks, "mrxset 3 2 2 96 3\nmrxtail\nmpost 1 1 1 0 0", "mrxtail 0 1\nmpost 3 2 2\n");
    // shut is set by an accepted shutdown, and not by one that is refused with 3
    let full = "mtx 2\nmshut 1 0 0 0 1\nmtxset 2 0 1 0 64 2\nmshut 1 0 0 0 1\n\
        mtxset 2 1 0 0 64 2\nmshut 0 0 0 0 1";
    equal(checks, full, "mtx 0 2 0 0 0\nmshut 0 0 1 1\nmshut 3 0 1 0\nmshut 0 1 1 1\n");
}

/// What the list keeps of a line's flags: no byte of the ring is lent to the sum, and one number.
fn kept(checks: &mut Checks) {
    for (name, line, number) in [
        ("mtx", "msend 0 0 0 0 1 0 0 0", 0x0801_2000),
        ("mtx", "msend 0 0 0 0 0 1 0 0", 0x0801_4000),
        ("mtx", "msend 0 0 0 0 0 0 1 0", 0x0801_8000),
        ("mtx", "msend 1 600 1 600 0 0 0 0", 0x0801_1600),
        ("mtx", "mshut 1 1 0 0 0", 0x0003_2000),
        ("mtx", "mshut 0 0 1 0 0", 0x0003_4000),
        ("mtx", "mshut 0 0 0 1 0", 0x0003_8000),
        ("mrx", "mpost 1 1 1 1 0", 0x3000),
        ("mrx", "mpost 1 1 1 0 1", 0x5000),
    ] {
        let set = if name == "mtx" { "mtxset 1 0 0 0 0 1" } else { "mrxset 1 0 0 0 1" };
        let script = format!("{name} 2\n{line}\n{set}\n{name}sum");
        let said = answers(script.as_bytes()).0;
        checks.equal(line, said.lines().last(), Some(&*format!("{name}sum 0 {number}")));
    }
}

/// A fresh ring finds what stands in memory, each ring its own, and its sum is of what is lent.
fn memory(checks: &mut Checks) {
    for (name, other, fresh) in [("mtx", "mrx", "0 1 0 0 0"), ("mrx", "mtx", "0 1 0 0")] {
        let poked = format!("{name}poke 0 9\n{name}poke 31 1\n{name}poke 32 5\n{name}list 0 7");
        let beside = format!("{name}list 1 5\n{other}poke 1 3\n{other}list 0 3\nmbuf 0 3");
        let script = format!("{poked}\n{beside}\n{name} 1\n{name}sum");
        // rotl(9, 7 x 31) is 9 x 2^25
        equal(checks, &script, &format!("{name} {fresh}\n{name}sum 301989889 7\n"));
    }
}

/// A line of each word, each number that has an end of its own at it.
const AT_ENDS: [&str; 20] = [
    "mtx 1",
    "mrx 1",
    "mtxset 1 0 0 1 32768 1024",
    "mrxset 1 0 0 32768 1024",
    "mtxpoke 32767 255",
    "mrxpoke 32767 255",
    "mbuf 8191 255",
    "mtxlist 1023 4294967295",
    "mrxlist 1023 4294967295",
    "msend 1 1 1 8192 1 1 1 1",
    "mshut 1 1 1 1 1",
    "mdone 8192",
    "mpost 1 1 8192 1 1",
    "mread 8192",
    "mtxtail",
    "mtxreg",
    "mrxtail",
    "mrxreg",
    "mtxsum",
    "mrxsum",
];

/// SIZE, HEAD, POSTED, LENGTH, ADDRESS and COOKIE have no end of their own.
fn is_free(word: &str, place: usize) -> bool {
    match word {
        "mtx" | "mrx" => true,
        "mtxset" | "mrxset" => place <= 3,
        "msend" => [2, 3, 8].contains(&place),
        "mshut" => place == 5,
        "mpost" => place <= 2,
        _ => false,
    }
}

/// Each word's bad forms: a number too few, too many, or past its end.
fn bad_lines(checks: &mut Checks) {
    let is_bad = |line: &str| answers(line.as_bytes()).0 == "bad 1\n";
    for line in AT_ENDS {
        checks.equal(line, is_bad(line), false);
        checks.equal("extra", is_bad(&format!("{line} 0")), true);
        let words: Vec<&str> = line.split(' ').collect();
        if let [fewer @ .., _] = &words[1..] {
            checks.equal("missing", is_bad(&[&words[..1], fewer].concat().join(" ")), true);
        }
        for place in 1..words.len() {
            let with = |number: u128| {
                let mut words: Vec<String> = words.iter().map(|word| word.to_string()).collect();
                words[place] = number.to_string();
                is_bad(&words.join(" "))
            };
            let (number, most) = (words[place].parse().unwrap_or(0u128), u128::from(u64::MAX));
            let bounded = !is_free(words[0], place);
            checks.equal(&format!("{line}, past {place}"), with(number + 1), bounded);
            checks.equal(&format!("{line}, far past {place}"), with(most), bounded);
            checks.equal("above 2^64 - 1", with(most + 1), true);
        }
    }
}
