//! Lines that are not of any form.

use crate::author::Author;
use crate::script::LONGEST_LINE;

/// Good lines of every form, to be spoilt.
const GOOD: [&str; 44] = [
    "rx 0 32 2048",
    "rxset 0 32 0 0 9 9 2048 64 32",
    "rxpoke 0 7",
    "rxlist 0 7",
    "post 4096",
    "take",
    "out 0 7",
    "burst 1 96",
    "rxtail",
    "rxreg",
    "rxsum",
    "tx 0 32 1518",
    "txset 0 32 0 0 9 9 1518 64 32 32",
    "txpoke 0 7",
    "txtoken 0 7",
    "txcount 0 7",
    "send 1 0 0 0 0 0 0 0 0 0 0 1 1 4096 60",
    "send 1 0 0 0 0 0 0 0 0 0 0 0 0",
    "reclaim",
    "txtail",
    "txreg",
    "txsum",
    "int 0 1 0 1 0 0 3 0",
    "ptype 26",
    "mtx 4",
    "mrx 4",
    "mtxset 4 0 0 0 128 4",
    "mrxset 4 0 0 128 4",
    "mtxpoke 0 7",
    "mrxpoke 0 7",
    "mbuf 0 7",
    "mtxlist 0 7",
    "mrxlist 0 7",
    "msend 1 7 4096 64 0 0 0 9",
    "mshut 0 0 0 0 9",
    "mdone 64",
    "mpost 7 4096 64 0 0",
    "mread 64",
    "mtxtail",
    "mtxreg",
    "mrxtail",
    "mrxreg",
    "mtxsum",
    "mrxsum",
];

/// Numbers that are too large, or no numbers.
const UNFIT: [&str; 16] = [
    "18446744073709551616",
    "99999999999999999999",
    "000000000000000000001",
    "100000000000000000000000000000",
    "-1",
    "+1",
    "1.0",
    "0x10",
    "1e3",
    "1_000",
    "1,000",
    "\u{661}",
    "x",
    "\"1\"",
    "1#",
    "1\r",
];

/// Lines that break a bound of the bench.
const BEYOND: [&str; 99] = [
    "rxset 0 32 0 0 9 9 2048 16385 32",
    "rxset 0 32 0 0 9 9 2048 64 8193",
    "rxset 0 32 0 0 9 9 2048 18446744073709551615 32",
    "rxpoke 16384 0",
    "rxpoke 18446744073709551615 0",
    "rxlist 8192 0",
    "rxlist 18446744073709551615 0",
    "out 128 7",
    "out 256 7",
    "out 18446744073709551615 7",
    "burst 1 129",
    "burst 0 129",
    "burst 33 224",
    "burst 1 18446744073709551615",
    "txset 0 32 0 0 9 9 1518 16385 32 32",
    "txset 0 32 0 0 9 9 1518 64 8193 32",
    "txset 0 32 0 0 9 9 1518 64 32 8193",
    "txpoke 16384 0",
    "txtoken 8192 0",
    "txcount 8192 0",
    "txcount 0 65536",
    "txcount 0 18446744073709551615",
    "send 1 4 0 0 0 0 0 0 0 0 0 1 1 4096 60",
    "send 1 0 4 0 0 0 0 0 0 0 0 1 1 4096 60",
    "send 1 18446744073709551615 0 0 0 0 0 0 0 0 0 1 1 4096 60",
    "send 1 0 0 0 0 0 2 0 0 0 0 1 1 4096 60",
    "send 1 0 0 0 0 0 0 0 2 0 0 1 1 4096 60",
    "send 1 0 0 0 0 0 0 0 0 0 0 8193 1 4096 60",
    "send 1 0 0 0 0 0 0 0 0 0 0 1 8193 4096 60",
    "send 1 0 0 0 0 0 0 0 0 0 0 2 1 4096 60",
    "send 1 0 0 0 0 0 0 0 0 0 0 1 2 4096 60",
    "send 1 0 0 0 0 0 0 0 0 0 0 1 0 4096 60",
    "send 1 0 0 0 0 0 0 0 0 0 0 18446744073709551615 1 4096 60",
    "send 1 0 0 0 0 0 0 0 0 0 0 18446744073709551615 3 4096 60",
    "int 0 3 0 1 0 0 3 0",
    "int 0 1 2 1 0 0 3 0",
    "int 0 1 0 2 0 0 3 0",
    "int 0 1 0 1 2 0 3 0",
    "int 0 18446744073709551615 0 1 0 0 3 0",
    "int 0 1 0 18446744073709551615 0 0 3 0",
    "int 0 1 0 1 0 0 3 0 0",
    "ptype 256",
    "ptype 257",
    "ptype 282",
    "ptype 4294967322",
    "ptype 18446744073709551615",
    "mtxset 4 0 0 2 128 4",
    "mtxset 4 0 0 18446744073709551615 128 4",
    "mtxset 4 0 0 0 32769 4",
    "mtxset 4 0 0 0 128 1025",
    "mtxset 4 0 0 0 18446744073709551615 4",
    "mtxset 4 0 0 0 128 18446744073709551615",
    "mrxset 4 0 0 32769 4",
    "mrxset 4 0 0 128 1025",
    "mrxset 4 0 0 18446744073709551615 4",
    "mrxset 4 0 0 128 18446744073709551615",
    "mrxset 4 0 0 0 128 4",
    "mtxset 4 0 0 128 4",
    "mtxpoke 32768 7",
    "mtxpoke 18446744073709551615 7",
    "mtxpoke 0 256",
    "mtxpoke 0 18446744073709551615",
    "mrxpoke 32768 7",
    "mrxpoke 18446744073709551615 7",
    "mrxpoke 0 256",
    "mrxpoke 0 18446744073709551615",
    "mbuf 8192 7",
    "mbuf 18446744073709551615 7",
    "mbuf 0 256",
    "mbuf 0 18446744073709551615",
    "mtxlist 1024 7",
    "mtxlist 18446744073709551615 7",
    "mtxlist 0 4294967296",
    "mtxlist 0 18446744073709551615",
    "mrxlist 1024 7",
    "mrxlist 18446744073709551615 7",
    "mrxlist 0 4294967296",
    "mrxlist 0 18446744073709551615",
    "msend 2 7 4096 64 0 0 0 9",
    "msend 1 7 4096 8193 0 0 0 9",
    "msend 1 7 4096 18446744073709551615 0 0 0 9",
    "msend 1 7 4096 64 2 0 0 9",
    "msend 1 7 4096 64 0 2 0 9",
    "msend 1 7 4096 64 0 0 2 9",
    "msend 18446744073709551615 7 4096 64 0 0 0 9",
    "mshut 2 0 0 0 9",
    "mshut 0 2 0 0 9",
    "mshut 0 0 2 0 9",
    "mshut 0 0 0 2 9",
    "mshut 0 0 0 18446744073709551615 9",
    "mdone 8193",
    "mdone 18446744073709551615",
    "mread 8193",
    "mread 18446744073709551615",
    "mpost 7 4096 8193 0 0",
    "mpost 7 4096 18446744073709551615 0 0",
    "mpost 7 4096 64 2 0",
    "mpost 7 4096 64 0 2",
    "mpost 7 4096 64 0 18446744073709551615",
];

/// Whole lines of other sorts, among them records without the counts.
const STRAY: [&str; 96] = [
    " ",
    "  ",
    "\t",
    "\r",
    "\0",
    " # a comment begins at the first byte",
    "take # no comment here",
    "0",
    "Take",
    "TAKE",
    "takes",
    "tak",
    "t",
    "rxt",
    "rx",
    "rxtail1",
    "rxtail\r",
    "take\t",
    "take\0",
    "take\u{b}",
    "int",
    "send",
    "send 1",
    "post",
    "post post",
    "post 1 2",
    "take 0",
    "out",
    "out 0",
    "out 0 1 2",
    "outs 0 1",
    "burst",
    "burst 1",
    "burst 1 96 0",
    "bursts 1 96",
    "reclaim 0",
    "rxset 0 32 0 0 2048 64 32",
    "txset 0 32 0 0 1518 64 32 32",
    "txsum 0",
    "ptype",
    "ptype ptype",
    "ptype 26 26",
    "ptype 3 4 0 1",
    "ptyp 26",
    "ptypes 26",
    "Ptype 26",
    "type 26",
    "ptype26",
    "ptype 0x1A",
    "ptype +26",
    "ptype 26.",
    "caf\u{e9}",
    "mtx",
    "mrx",
    "mtx 4 4",
    "mrx 4 4",
    "m",
    "mt",
    "mtxs 4",
    "mtx4",
    "Mtx 4",
    "mtxset 4 0 0 128 4 0 0",
    "mrxset 4 0 0",
    "msend",
    "msend 1 7 4096 64 0 0 0",
    "msend 1 7 4096 64 0 0 0 9 9",
    "msends 1 7 4096 64 0 0 0 9",
    "mshut",
    "mshut 0 0 0 0",
    "mshut 0 0 0 0 9 9",
    "mshuts 0 0 0 0 9",
    "mdone",
    "mdone 64 64",
    "mdon 64",
    "mpost",
    "mpost 7 4096 64 0",
    "mpost 7 4096 64 0 0 0",
    "mread",
    "mread 64 64",
    "mreads 64",
    "mbuf",
    "mbuf 0",
    "mbuf 0 7 7",
    "mbufs 0 7",
    "mtxtail 0",
    "mtxreg 0",
    "mrxtail 0",
    "mrxreg 0",
    "mtxsum 0",
    "mrxsum 0",
    "mtail",
    "mreg",
    "msum",
    "mtxdone 64",
    "mrxread 64",
    "mrxshut 0 0 0 0 9",
];

fn spoilt(author: &mut Author) -> Vec<u8> {
    let random = &mut author.random;
    let good = random.pick(&GOOD);
    let mut words: Vec<String> = good.split(' ').map(str::to_string).collect();
    let last = words.len() - 1;
    let place = random.below(words.len() as u64) as usize;
    match random.below(9) {
        0 => words.insert(place, String::new()),
        1 => words.push(random.below(100).to_string()),
        2 => {
            words.pop();
        }
        3..=5 => words[place.max(1).min(last)] = random.pick(&UNFIT).to_string(),
        6 => words.push(String::new()),
        7 => words.insert(0, String::new()),
        _ => return spoilt_byte(author, good),
    }
    words.join(" ").into_bytes()
}

/// One byte of a good line changed to any other (a line end stays a line end).
fn spoilt_byte(author: &mut Author, good: &str) -> Vec<u8> {
    let mut line = good.as_bytes().to_vec();
    let place = author.random.below(line.len() as u64) as usize;
    let byte = author.random.below(256) as u8;
    line[place] = if byte == b'\n' { b'?' } else { byte };
    line
}

pub fn any(author: &mut Author) {
    let line = match author.random.below(5) {
        0 | 1 => author.random.pick(&BEYOND).as_bytes().to_vec(),
        2 => author.random.pick(&STRAY).as_bytes().to_vec(),
        _ => spoilt(author),
    };
    author.say(line);
}

/// Each listed line once, and each form with each way to spoil it.
pub fn all(author: &mut Author) {
    for line in BEYOND.iter().chain(&STRAY) {
        author.say(line);
    }
    for good in GOOD {
        author.say(format!("{good} "));
        author.say(format!(" {good}"));
        author.say(format!("{good} 0"));
        author.say(format!("{good}\r"));
        author.say(good.replacen(' ', "  ", 1));
        author.say(good.replacen(' ', "\t", 1));
        author.say(good.rsplit_once(' ').map_or("?", |(start, _)| start));
        author.say(good.to_uppercase());
        for place in 1..good.split(' ').count() {
            unfit_at(author, good, place);
        }
    }
}

fn unfit_at(author: &mut Author, good: &str, place: usize) {
    let unfit = author.random.pick(&UNFIT);
    for other in [unfit, "18446744073709551616", "", "-0"] {
        let mut words: Vec<&str> = good.split(' ').collect();
        words[place] = other;
        author.say(words.join(" "));
    }
}

/// Lines of the longest length, and one byte longer: a comment, a call and a send.
pub fn long(author: &mut Author) {
    for length in [LONGEST_LINE, LONGEST_LINE + 1] {
        author.say(vec![b'#'; length]);
        author.say(vec![b' '; length]);
        author.say(vec![b'0'; length]);
    }
    long_send(author, LONGEST_LINE);
    long_send(author, LONGEST_LINE + 1);
}

/// The longest send that is of the form: 8,192 of each, every number of twenty digits. Then the
/// same line with its last number drawn out to `length` bytes.
fn long_send(author: &mut Author, length: usize) {
    let mut line = String::from("send 1 0 0 0 0 0 0 0 0 0 0 8192 8192");
    for _ in 0..2 * 8192 {
        line.push_str(" 00000000000000000001");
    }
    author.say(&line);
    while line.len() < length {
        line.push('0');
    }
    author.say(&line);
}
