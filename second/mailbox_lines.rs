//! The mailbox's lines of a script (M-105).
//!
//! Where the format's page is silent, this reader decides: COOKIE is any number, and what a line
//! has beside SIZE, HEAD, POSTED, LENGTH, ADDRESS and COOKIE is bounded by the memory held, by its
//! byte or number, or by its flag.

use crate::mailbox::{Marks, Message, Post, Ring, Shutdown};
use crate::record::Direction;
use crate::script::{flag, form, index, lent, Bad, Form};

/// Bytes of a ring, numbers of a companion list, bytes of the one buffer.
pub const RING: u64 = 32_768;
pub const LIST: u64 = 1_024;
pub const BUFFER: u64 = 8_192;

/// A line of the send ring (Transmit), the receive ring, or the buffer.
#[derive(Clone, Copy, Debug)]
pub enum Line {
    Fresh {
        direction: Direction,
        size: u64,
    },
    Set {
        direction: Direction,
        record: Ring,
        ring: usize,
        list: usize,
    },
    Poke {
        direction: Direction,
        index: usize,
        byte: u8,
    },
    List {
        direction: Direction,
        index: usize,
        value: u32,
    },
    Buffer {
        index: usize,
        byte: u8,
    },
    Send(Message),
    ShutDown(Shutdown),
    Post(Post),
    /// `mdone`, or `mread`.
    Read {
        direction: Direction,
        lent: usize,
    },
    Tail(Direction),
    Register(Direction),
    Sum(Direction),
}

/// Each line's word, and how many numbers follow.
pub const FORMS: [Form; 20] = [
    form("mtx", 1),
    form("mrx", 1),
    form("mtxset", 6),
    form("mrxset", 5),
    form("mtxpoke", 2),
    form("mrxpoke", 2),
    form("mbuf", 2),
    form("mtxlist", 2),
    form("mrxlist", 2),
    form("msend", 8),
    form("mshut", 5),
    form("mdone", 1),
    form("mpost", 5),
    form("mread", 1),
    form("mtxtail", 0),
    form("mtxreg", 0),
    form("mrxtail", 0),
    form("mrxreg", 0),
    form("mtxsum", 0),
    form("mrxsum", 0),
];

impl Line {
    pub fn prints(&self) -> bool {
        !matches!(
            self,
            Line::Set { .. } | Line::Poke { .. } | Line::List { .. } | Line::Buffer { .. }
        )
    }
}

/// A line of one of these words, with as many numbers as it has.
pub fn line(name: &str, n: &[u64]) -> Result<Line, Bad> {
    use Direction::{Receive, Transmit};
    Ok(match name {
        "mtx" => Line::Fresh { direction: Transmit, size: n[0] },
        "mrx" => Line::Fresh { direction: Receive, size: n[0] },
        "mtxset" => set(Transmit, n, is(n[3])?, &n[4..])?,
        "mrxset" => set(Receive, n, false, &n[3..])?,
        "mtxpoke" => poke(Transmit, n)?,
        "mrxpoke" => poke(Receive, n)?,
        "mbuf" => Line::Buffer { index: buffer_index(n[0])?, byte: byte(n[1])? },
        "mtxlist" => list(Transmit, n)?,
        "mrxlist" => list(Receive, n)?,
        "msend" => Line::Send(message(n)?),
        "mshut" => Line::ShutDown(shutdown(n)?),
        "mdone" => Line::Read { direction: Transmit, lent: buffer_length(n[0])? },
        "mpost" => Line::Post(post(n)?),
        "mread" => Line::Read { direction: Receive, lent: buffer_length(n[0])? },
        "mtxtail" => Line::Tail(Transmit),
        "mtxreg" => Line::Register(Transmit),
        "mrxtail" => Line::Tail(Receive),
        "mrxreg" => Line::Register(Receive),
        "mtxsum" => Line::Sum(Transmit),
        _ => Line::Sum(Receive),
    })
}

/// A record's size, head and posted, then what is lent.
fn set(direction: Direction, n: &[u64], shut: bool, lengths: &[u64]) -> Result<Line, Bad> {
    let record = Ring { size: n[0], head: n[1], posted: n[2], shut };
    let ring = lent(lengths[0], RING).map_err(|_| "length beyond a mailbox ring")?;
    let list = lent(lengths[1], LIST).map_err(|_| "length beyond a mailbox list")?;
    Ok(Line::Set { direction, record, ring, list })
}

fn poke(direction: Direction, n: &[u64]) -> Result<Line, Bad> {
    let index = index(n[0], RING).map_err(|_| "index beyond a mailbox ring")?;
    Ok(Line::Poke { direction, index, byte: byte(n[1])? })
}

fn list(direction: Direction, n: &[u64]) -> Result<Line, Bad> {
    let index = index(n[0], LIST).map_err(|_| "index beyond a mailbox list")?;
    let value = u32::try_from(n[1]).map_err(|_| "value above 2^32 - 1")?;
    Ok(Line::List { direction, index, value })
}

fn message(n: &[u64]) -> Result<Message, Bad> {
    Ok(Message {
        buf: is(n[0])?,
        length: n[1],
        address: n[2],
        lent: buffer_length(n[3])?,
        marks: marks(&n[4..7])?,
        cookie: n[7].to_le_bytes(),
    })
}

fn shutdown(n: &[u64]) -> Result<Shutdown, Bad> {
    Ok(Shutdown { unloading: is(n[0])?, marks: marks(&n[1..4])?, cookie: n[4].to_le_bytes() })
}

fn post(n: &[u64]) -> Result<Post, Bad> {
    let (length, address) = (n[0], n[1]);
    Ok(Post { length, address, lent: buffer_length(n[2])?, si: is(n[3])?, ei: is(n[4])? })
}

fn marks(n: &[u64]) -> Result<Marks, Bad> {
    Ok(Marks { si: is(n[0])?, ei: is(n[1])?, fe: is(n[2])? })
}

fn is(value: u64) -> Result<bool, Bad> {
    Ok(flag(value)? == 1)
}

fn byte(value: u64) -> Result<u8, Bad> {
    u8::try_from(value).map_err(|_| "byte above 255")
}

fn buffer_index(value: u64) -> Result<usize, Bad> {
    index(value, BUFFER).map_err(|_| "index beyond the mailbox buffer")
}

fn buffer_length(value: u64) -> Result<usize, Bad> {
    lent(value, BUFFER).map_err(|_| "length beyond the mailbox buffer")
}
