//! How scripts speak to the mailbox: lines from what they ask for, and the device that writes
//! elements.

use crate::author::Author;
use crate::mailbox::{judge_lent, Element, Message, Post, Ring, Shutdown, ELEMENT};
use crate::record::Direction;

impl Message {
    pub fn line(&self) -> String {
        let Message { buf, length, address, lent, marks, cookie } = *self;
        let [buf, si, ei, fe] = [buf, marks.si, marks.ei, marks.fe].map(u64::from);
        let cookie = u64::from_le_bytes(cookie);
        format!("msend {buf} {length} {address} {lent} {si} {ei} {fe} {cookie}")
    }
}

impl Shutdown {
    pub fn line(&self) -> String {
        let Shutdown { unloading, marks, cookie } = *self;
        let [unloading, si, ei, fe] = [unloading, marks.si, marks.ei, marks.fe].map(u64::from);
        format!("mshut {unloading} {si} {ei} {fe} {}", u64::from_le_bytes(cookie))
    }
}

impl Post {
    pub fn line(&self) -> String {
        let Post { length, address, lent, si, ei } = *self;
        let [si, ei] = [si, ei].map(u64::from);
        format!("mpost {length} {address} {lent} {si} {ei}")
    }
}

/// The part of a line's word that tells the ring.
pub fn ring_name(direction: Direction) -> &'static str {
    match direction {
        Direction::Transmit => "mtx",
        Direction::Receive => "mrx",
    }
}

/// The word that reads a ring.
pub fn reader(direction: Direction) -> &'static str {
    match direction {
        Direction::Transmit => "mdone",
        Direction::Receive => "mread",
    }
}

pub const BOTH: [Direction; 2] = [Direction::Transmit, Direction::Receive];

impl Author {
    /// Hands in a mailbox record, with the lengths that its size asks for.
    pub fn mail_set(&mut self, direction: Direction, record: Ring) {
        self.mail_set_lent(direction, record, 32 * record.size, record.size);
    }

    pub fn mail_set_lent(&mut self, direction: Direction, record: Ring, ring: u64, list: u64) {
        let (name, Ring { size, head, posted, shut }) = (ring_name(direction), record);
        let shut = match direction {
            Direction::Transmit => format!("{} ", u64::from(shut)),
            Direction::Receive => String::new(),
        };
        self.say(format!("{name}set {size} {head} {posted} {shut}{ring} {list}"));
    }

    /// The same, where it does not stand so already: a refused reading leaves all as it was.
    pub fn mail_reset(&mut self, direction: Direction, record: Ring, list: u64) {
        let half = self.bench.mail.half(direction);
        let (ring, lent) = (32 * record.size, [half.lent_ring as u64, half.lent_list as u64]);
        if half.record != record || lent != [ring, list] {
            self.mail_set_lent(direction, record, ring, list);
        }
    }

    /// The device writes a slot. Bytes that stand there already are left, since a line a byte is
    /// much.
    pub fn mail_write(&mut self, direction: Direction, slot: usize, bytes: &[u8; ELEMENT]) {
        for (place, byte) in (ELEMENT * slot..).zip(bytes) {
            if self.bench.mail.half(direction).ring[place] != *byte {
                self.say(format!("{}poke {place} {byte}", ring_name(direction)));
            }
        }
    }

    /// What the companion list keeps of a slot, likewise.
    pub fn mail_keep(&mut self, direction: Direction, slot: usize, value: u32) {
        if self.bench.mail.half(direction).list[slot] != value {
            self.say(format!("{}list {slot} {value}", ring_name(direction)));
        }
    }

    /// The element as it stands in a slot.
    pub fn mail_element(&self, direction: Direction, slot: usize) -> Element {
        Element::read(&self.bench.mail.half(direction).ring[ELEMENT * slot..])
    }

    pub fn mail_record(&self, direction: Direction) -> Ring {
        self.bench.mail.half(direction).record
    }

    /// Whether calls on this ring get past answer 1.
    pub fn mail_sound(&self, direction: Direction) -> bool {
        let half = self.bench.mail.half(direction);
        let (ring, list) = half.seen();
        judge_lent(&half.record, ring, list).is_ok()
    }
}
