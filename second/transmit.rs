//! Sending: the offload request, send, reclaim and the descriptors of Section 2.2.2.

use crate::record::{bits, judge_buffer, judge_length, refuse, unless_broken};
use crate::record::{Direction, Judged, Record};
use crate::segments;

pub const IP_NONE: u64 = 0;
pub const IPV6: u64 = 1;
pub const IPV4: u64 = 2;
pub const IPV4_CHECKSUM: u64 = 3;

pub const L4_NONE: u64 = 0;
pub const TCP: u64 = 1;
pub const SCTP: u64 = 2;
pub const UDP: u64 = 3;

pub const MOST_PIECE: u64 = 16383;
pub const MOST_PIECES_PLAIN: usize = 8;
pub const MOST_PIECES_SEGMENTED: usize = 4094;
pub const LEAST_TOTAL: u128 = 17;
pub const MOST_HEADER: u128 = 512;
pub const HEADER_PIECES: usize = 3;
pub const MOST_TLEN: u64 = 262_143;
pub const LEAST_MSS: u64 = 88;
pub const MOST_TAG: u64 = 65_535;

/// Why a send is answered 3.
pub const NO_ROOM_PLAIN: [&str; 3] =
    ["no room, plain", "no count room, plain", "no room and no count room, plain"];
pub const NO_ROOM_SEGMENTED: [&str; 3] =
    ["no room, segmented", "no count room, segmented", "no room and no count room, segmented"];

/// A send: token, offload request and pieces. `ip` and `l4` are the codes of IIPT and L4T.
#[derive(Clone, Debug, Default, PartialEq, Eq)]
pub struct Send {
    pub token: u64,
    pub ip: u64,
    pub l4: u64,
    pub mac: u64,
    pub ip_length: u64,
    pub l4_length: u64,
    pub vlan: bool,
    pub tag: u64,
    pub segmented: bool,
    pub mss: u64,
    pub tlen: u64,
    pub addresses: Vec<u64>,
    pub lengths: Vec<u64>,
}

/// The slices lent with a transmit queue.
pub struct Lent<'a> {
    pub ring: &'a mut [u64],
    pub tokens: &'a mut [u64],
    pub counts: &'a mut [u16],
}

fn judge_lent(record: &Record, lent: &Lent) -> Judged<()> {
    record.judge(Direction::Transmit)?;
    judge_length(lent.ring.len(), 2 * record.size, ["ring too short", "ring too long"])?;
    judge_length(lent.tokens.len(), record.size, ["tokens too short", "tokens too long"])?;
    judge_length(lent.counts.len(), record.size, ["counts too short", "counts too long"])
}

impl Send {
    /// The three lengths of the request may be any 64-bit numbers, so their sum is wider.
    pub fn header(&self) -> u128 {
        u128::from(self.mac) + u128::from(self.ip_length) + u128::from(self.l4_length)
    }

    pub fn total(&self) -> u128 {
        self.lengths.iter().map(|length| u128::from(*length)).sum()
    }

    /// One slot a piece, and one for the context descriptor.
    pub fn slots(&self) -> u64 {
        self.lengths.len() as u64 + u64::from(self.segmented)
    }

    fn judge_lengths(&self, frame: u64) -> Judged<()> {
        let (pieces, total) = (self.lengths.len(), self.total());
        unless_broken(self.addresses.len() != pieces, 6, "lists differ in length")?;
        unless_broken(pieces == 0, 6, "no piece")?;
        let many = pieces > MOST_PIECES_PLAIN && !self.segmented;
        unless_broken(many, 6, "more than 8 pieces")?;
        unless_broken(pieces > MOST_PIECES_SEGMENTED, 6, "more than 4,094 pieces")?;
        unless_broken(self.lengths.contains(&0), 6, "a length of 0")?;
        let long = self.lengths.iter().any(|length| *length > MOST_PIECE);
        unless_broken(long, 6, "a length above 16,383")?;
        if self.segmented {
            let asked = self.header() + u128::from(self.tlen);
            return unless_broken(total != asked, 6, "total not header + TLEN");
        }
        unless_broken(total < LEAST_TOTAL, 6, "total below 17")?;
        unless_broken(total > u128::from(frame), 6, "total above the maximum frame")
    }

    fn judge_addresses(&self) -> Judged<()> {
        for (address, length) in self.addresses.iter().zip(&self.lengths) {
            judge_buffer(*address, *length)?;
        }
        Ok(())
    }

    fn judge_offload(&self, frame: u64) -> Judged<()> {
        if self.ip == IP_NONE {
            unless_broken(self.l4 != L4_NONE, 7, "IP none with an L4 kind")?;
            unless_broken(self.header() != 0, 7, "IP none with a length")?;
            unless_broken(self.segmented, 7, "IP none segmented")?;
        } else {
            judge_range(self.mac, 14, 254, 2, MAC_CAUSES)?;
            self.judge_ip_length()?;
            self.judge_l4_length()?;
        }
        unless_broken(!self.vlan && self.tag != 0, 7, "tag not asked for")?;
        unless_broken(self.tag > MOST_TAG, 7, "tag above 65,535")?;
        if self.segmented {
            return self.judge_segmentation(frame);
        }
        unless_broken(self.header() > self.total(), 7, "header above the total")?;
        unless_broken(self.mss != 0, 7, "MSS not segmented")?;
        unless_broken(self.tlen != 0, 7, "TLEN not segmented")
    }

    fn judge_ip_length(&self) -> Judged<()> {
        match self.ip {
            IPV6 => judge_range(self.ip_length, 40, 508, 4, IPV6_CAUSES),
            _ => judge_range(self.ip_length, 20, 60, 4, IPV4_CAUSES),
        }
    }

    fn judge_l4_length(&self) -> Judged<()> {
        match self.l4 {
            L4_NONE => unless_broken(self.l4_length != 0, 7, "L4 none with a length"),
            TCP => judge_range(self.l4_length, 20, 60, 4, TCP_CAUSES),
            SCTP => unless_broken(self.l4_length != 12, 7, "SCTP length not 12"),
            _ => unless_broken(self.l4_length != 8, 7, "UDP length not 8"),
        }
    }

    fn judge_segmentation(&self, frame: u64) -> Judged<()> {
        let header = self.header();
        unless_broken(self.l4 != TCP, 7, "segmented without TCP")?;
        unless_broken(self.ip == IPV4, 7, "segmented IPv4 without checksum")?;
        unless_broken(header > MOST_HEADER, 7, "header above 512")?;
        let first: u64 = self.lengths.iter().take(HEADER_PIECES).sum();
        unless_broken(header > u128::from(first), 7, "header past the third piece")?;
        unless_broken(self.tlen == 0, 7, "TLEN 0")?;
        unless_broken(self.tlen > MOST_TLEN, 7, "TLEN above 262,143")?;
        unless_broken(self.mss < LEAST_MSS, 7, "MSS below 88")?;
        unless_broken(self.mss > frame - header as u64, 7, "MSS above frame - header")
    }

    /// Pieces touched, a number a segment; empty for a plain send.
    pub fn touched(&self) -> Vec<u64> {
        if !self.segmented {
            return Vec::new();
        }
        segments::touched(&self.lengths, self.header() as u64, self.mss, self.tlen)
    }

    fn judge_segments(&self) -> Judged<()> {
        let touched = self.touched();
        let crowded = |count: &u64| *count > segments::MOST_TOUCHED;
        match touched.iter().position(crowded) {
            None => Ok(()),
            Some(0) => refuse(8, "segment 0 touches more than 8"),
            Some(k) if k + 1 == touched.len() => refuse(8, "only the last segment"),
            Some(_) => refuse(8, "first a later segment"),
        }
    }

    fn judge(&self, record: &Record) -> Judged<()> {
        self.judge_lengths(record.limit)?;
        self.judge_addresses()?;
        self.judge_offload(record.limit)?;
        self.judge_segments()?;
        let causes = if self.segmented { NO_ROOM_SEGMENTED } else { NO_ROOM_PLAIN };
        record.judge_room(self.slots(), causes)
    }

    /// The packet's descriptors in ring order, two words each.
    pub fn descriptors(&self) -> Vec<[u64; 2]> {
        let mut all = Vec::with_capacity(self.slots() as usize);
        if self.segmented {
            all.push([0, context_word(self.tlen, self.mss)]);
        }
        let last = self.lengths.len() - 1;
        for (piece, length) in self.lengths.iter().enumerate() {
            all.push([self.addresses[piece], self.data_word(*length, piece == last)]);
        }
        all
    }

    /// Word 1 of a data descriptor. Bit 6 is CMD bit 2, "Reserved, must be set to 1b".
    pub fn data_word(&self, length: u64, last: bool) -> u64 {
        u64::from(last) << 4
            | u64::from(last) << 5
            | 1 << 6
            | u64::from(self.vlan) << 7
            | self.ip << 9
            | self.l4 << 12
            | (self.mac / 2) << 16
            | (self.ip_length / 4) << 23
            | (self.l4_length / 4) << 30
            | length << 34
            | self.tag << 48
    }
}

const MAC_CAUSES: [&str; 3] = ["MAC below 14", "MAC above 254", "MAC odd"];
const IPV4_CAUSES: [&str; 3] = ["IPv4 below 20", "IPv4 above 60", "IPv4 not in fours"];
const IPV6_CAUSES: [&str; 3] = ["IPv6 below 40", "IPv6 above 508", "IPv6 not in fours"];
const TCP_CAUSES: [&str; 3] = ["TCP below 20", "TCP above 60", "TCP not in fours"];

/// A length of the offload request: at least `lower`, at most `upper`, a multiple of `unit`.
fn judge_range(
    value: u64,
    lower: u64,
    upper: u64,
    unit: u64,
    causes: [&'static str; 3],
) -> Judged<()> {
    unless_broken(value < lower, 7, causes[0])?;
    unless_broken(value > upper, 7, causes[1])?;
    unless_broken(value % unit != 0, 7, causes[2])
}

/// Word 1 of a context descriptor: type 1, TSO, TLEN and MSS.
pub fn context_word(tlen: u64, mss: u64) -> u64 {
    1 | 1 << 4 | tlen << 30 | mss << 50
}

/// An accepted send gives the record and the slots it took.
pub fn send(record: Record, lent: &mut Lent, request: &Send) -> Judged<(Record, u64)> {
    judge_lent(&record, lent)?;
    request.judge(&record)?;
    let slots = request.slots();
    for (step, words) in request.descriptors().iter().enumerate() {
        let slot = record.slot(record.posted + step as u64);
        lent.ring[2 * slot] = words[0];
        lent.ring[2 * slot + 1] = words[1];
    }
    let first = record.tail() as usize;
    lent.tokens[first] = request.token;
    lent.counts[first] = slots as u16;
    Ok((record.posted_more(slots), slots))
}

/// A packet that is done gives the record, its token and its slot count.
pub fn reclaim(record: Record, lent: &Lent) -> Judged<(Record, u64, u64)> {
    judge_lent(&record, lent)?;
    unless_broken(record.posted == 0, 4, "posted 0")?;
    let head = record.head as usize;
    let count = u64::from(lent.counts[head]);
    unless_broken(count == 0, 5, "count 0")?;
    unless_broken(count > record.posted, 5, "count above posted")?;
    let last = record.slot(count - 1);
    let marked = bits(lent.ring[2 * last + 1], 3, 0) == 15;
    unless_broken(!marked, 4, "last slot not marked")?;
    Ok((record.moved_on(count), lent.tokens[head], count))
}
