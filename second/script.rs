//! The script format: one command a line.
//!
//! Where the format's page is silent, this reader decides:
//! - a line's bytes are counted without its line end, and the limit holds for comments too;
//! - only a `#` as the very first byte makes a comment, and a comment may hold any bytes;
//! - a carriage return, a tab or a NUL is a byte that does not belong, on an empty line too;
//! - a space at either end makes an empty word;
//! - ENABLE above 2 is treated like a kind above 3;
//! - A or L above 8,192 is a length beyond the memory held;
//! - LIMIT is any number, which the burst judges, and LENGTH is judged by the bench before it;
//! - text after the last line end is a line, nothing after it is not.

use crate::interrupt;
use crate::mailbox_lines;
use crate::record::Record;
use crate::transmit::Send;

pub const RING: u64 = 16_384;
pub const LIST: u64 = 8_192;
pub const OUT: u64 = 128;
pub const LONGEST_LINE: usize = 524_288;
pub const MOST_DIGITS: usize = 20;

#[derive(Clone, Debug)]
pub enum Command {
    Rx { queue: u64, size: u64, buffer: u64 },
    RxSet { record: Record, ring: usize, list: usize },
    RxPoke { index: usize, value: u64 },
    RxList { index: usize, value: u64 },
    Post { address: u64 },
    Take,
    Out { index: usize, value: u64 },
    Burst { limit: u64, length: usize },
    RxTail,
    RxReg,
    RxSum,
    Tx { queue: u64, size: u64, frame: u64 },
    TxSet { record: Record, ring: usize, tokens: usize, counts: usize },
    TxPoke { index: usize, value: u64 },
    TxToken { index: usize, value: u64 },
    TxCount { index: usize, value: u16 },
    Send(Box<Send>),
    Reclaim,
    TxTail,
    TxReg,
    TxSum,
    Int(interrupt::Request),
    PacketType { number: u8 },
    Mailbox(mailbox_lines::Line),
}

/// Why a line is bad. Only that it is bad is ever printed.
pub type Bad = &'static str;

impl Command {
    /// Lines that only write the bench's memory or record print nothing.
    pub fn prints(&self) -> bool {
        if let Command::Mailbox(line) = self {
            return line.prints();
        }
        !matches!(
            self,
            Command::RxSet { .. }
                | Command::RxPoke { .. }
                | Command::RxList { .. }
                | Command::Out { .. }
                | Command::TxSet { .. }
                | Command::TxPoke { .. }
                | Command::TxToken { .. }
                | Command::TxCount { .. }
        )
    }
}

/// The lines of a script. The last may lack its line end.
pub fn lines(text: &[u8]) -> impl Iterator<Item = &[u8]> {
    let whole = text.strip_suffix(b"\n").unwrap_or(text);
    let empty = text.is_empty();
    whole.split(|byte| *byte == b'\n').filter(move |_| !empty)
}

/// Reads one line. `None` is an empty line or a comment.
pub fn read(line: &[u8]) -> Result<Option<Command>, Bad> {
    if line.len() > LONGEST_LINE {
        return Err("longer line");
    }
    if line.is_empty() || line[0] == b'#' {
        return Ok(None);
    }
    let mut words = line.split(|byte| *byte == b' ');
    let name = words.next().unwrap_or(b"");
    let form = form_of(name)?;
    let mut numbers = Vec::new();
    for word in words {
        numbers.push(number(word)?);
    }
    if numbers.len() < form.numbers {
        return Err("missing number");
    }
    if numbers.len() > form.numbers && form.name != "send" {
        return Err("extra number");
    }
    command(form.name, &numbers).map(Some)
}

pub struct Form {
    name: &'static str,
    numbers: usize,
}

pub const fn form(name: &'static str, numbers: usize) -> Form {
    Form { name, numbers }
}

const SEND_NUMBERS: usize = 13;
/// A record's numbers; the lent lengths follow them.
const RECORD_NUMBERS: usize = 7;

/// Each line's word, and how many numbers follow (`send`: before its addresses). The mailbox's
/// lines stand beside them.
const FORMS: [Form; 23] = [
    form("rx", 3),
    form("rxset", RECORD_NUMBERS + 2),
    form("rxpoke", 2),
    form("rxlist", 2),
    form("post", 1),
    form("take", 0),
    form("out", 2),
    form("burst", 2),
    form("rxtail", 0),
    form("rxreg", 0),
    form("rxsum", 0),
    form("tx", 3),
    form("txset", RECORD_NUMBERS + 3),
    form("txpoke", 2),
    form("txtoken", 2),
    form("txcount", 2),
    form("send", SEND_NUMBERS),
    form("reclaim", 0),
    form("txtail", 0),
    form("txreg", 0),
    form("txsum", 0),
    form("int", 8),
    form("ptype", 1),
];

fn form_of(name: &[u8]) -> Result<&'static Form, Bad> {
    if name.is_empty() {
        return Err("empty word");
    }
    let mut forms = FORMS.iter().chain(&mailbox_lines::FORMS);
    forms.find(|form| form.name.as_bytes() == name).ok_or("unknown word")
}

fn number(word: &[u8]) -> Result<u64, Bad> {
    if word.is_empty() {
        return Err("empty word");
    }
    if !word.iter().all(u8::is_ascii_digit) {
        return Err("a byte that does not belong");
    }
    if word.len() > MOST_DIGITS {
        return Err("more than twenty digits");
    }
    // twenty digits stay far below 2^128
    let value = word.iter().fold(0u128, |value, digit| value * 10 + u128::from(digit - b'0'));
    if value > u128::from(u64::MAX) {
        return Err("number above 2^64 - 1");
    }
    Ok(value as u64)
}

fn command(name: &str, n: &[u64]) -> Result<Command, Bad> {
    Ok(match name {
        "rx" => Command::Rx { queue: n[0], size: n[1], buffer: n[2] },
        "rxset" => {
            Command::RxSet { record: record(n), ring: lent(n[7], RING)?, list: lent(n[8], LIST)? }
        }
        "rxpoke" => Command::RxPoke { index: index(n[0], RING)?, value: n[1] },
        "rxlist" => Command::RxList { index: index(n[0], LIST)?, value: n[1] },
        "post" => Command::Post { address: n[0] },
        "take" => Command::Take,
        "out" => Command::Out { index: out_index(n[0])?, value: n[1] },
        "burst" => Command::Burst { limit: n[0], length: out_length(n[1])? },
        "rxtail" => Command::RxTail,
        "rxreg" => Command::RxReg,
        "rxsum" => Command::RxSum,
        "tx" => Command::Tx { queue: n[0], size: n[1], frame: n[2] },
        "txset" => Command::TxSet {
            record: record(n),
            ring: lent(n[7], RING)?,
            tokens: lent(n[8], LIST)?,
            counts: lent(n[9], LIST)?,
        },
        "txpoke" => Command::TxPoke { index: index(n[0], RING)?, value: n[1] },
        "txtoken" => Command::TxToken { index: index(n[0], LIST)?, value: n[1] },
        "txcount" => Command::TxCount { index: index(n[0], LIST)?, value: count(n[1])? },
        "send" => Command::Send(Box::new(send(n)?)),
        "reclaim" => Command::Reclaim,
        "txtail" => Command::TxTail,
        "txreg" => Command::TxReg,
        "txsum" => Command::TxSum,
        "int" => Command::Int(interrupt_request(n)?),
        "ptype" => Command::PacketType { number: packet_type(n[0])? },
        _ => Command::Mailbox(mailbox_lines::line(name, n)?),
    })
}

fn record(n: &[u64]) -> Record {
    let (ever_posted, ever_returned) = (n[4], n[5]);
    Record {
        queue: n[0],
        size: n[1],
        head: n[2],
        posted: n[3],
        ever_posted,
        ever_returned,
        limit: n[6],
    }
}

pub fn lent(value: u64, held: u64) -> Result<usize, Bad> {
    if value > held {
        return Err("length beyond the memory held");
    }
    Ok(value as usize)
}

pub fn index(value: u64, held: u64) -> Result<usize, Bad> {
    if value >= held {
        return Err("index beyond the memory held");
    }
    Ok(value as usize)
}

fn out_index(value: u64) -> Result<usize, Bad> {
    index(value, OUT).map_err(|_| "index beyond the burst's list")
}

fn out_length(value: u64) -> Result<usize, Bad> {
    lent(value, OUT).map_err(|_| "length beyond the burst's list")
}

fn count(value: u64) -> Result<u16, Bad> {
    if value > u64::from(u16::MAX) {
        return Err("count above 65,535");
    }
    Ok(value as u16)
}

fn packet_type(value: u64) -> Result<u8, Bad> {
    u8::try_from(value).map_err(|_| "packet type above 255")
}

pub fn flag(value: u64) -> Result<u64, Bad> {
    if value > 1 {
        return Err("flag above 1");
    }
    Ok(value)
}

fn kind(value: u64, most: u64) -> Result<u64, Bad> {
    if value > most {
        return Err("kind above its last");
    }
    Ok(value)
}

fn send(n: &[u64]) -> Result<Send, Bad> {
    let (addresses, lengths) = (lent(n[11], LIST)?, lent(n[12], LIST)?);
    let given = n.len() - SEND_NUMBERS;
    if given < addresses + lengths {
        return Err("missing number");
    }
    if given > addresses + lengths {
        return Err("extra number");
    }
    let (first, second) = n[SEND_NUMBERS..].split_at(addresses);
    Ok(Send {
        token: n[0],
        ip: kind(n[1], 3)?,
        l4: kind(n[2], 3)?,
        mac: n[3],
        ip_length: n[4],
        l4_length: n[5],
        vlan: flag(n[6])? == 1,
        tag: n[7],
        segmented: flag(n[8])? == 1,
        mss: n[9],
        tlen: n[10],
        addresses: first.to_vec(),
        lengths: second.to_vec(),
    })
}

fn interrupt_request(n: &[u64]) -> Result<interrupt::Request, Bad> {
    Ok(interrupt::Request {
        vector: n[0],
        enable: kind(n[1], 2)?,
        write_back: flag(n[2])?,
        clear: flag(n[3])?,
        trigger: flag(n[4])?,
        trigger_index: n[5],
        index: n[6],
        interval: n[7],
    })
}
