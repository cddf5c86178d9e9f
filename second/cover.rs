//! What a script met: calls and answers, the clause behind each answer, and each field's bits.

use crate::receive::{self, Packet, DATA_SLOTS, FIELD_NAMES};
use crate::record::bits;
use crate::transmit::{Send, NO_ROOM_PLAIN, NO_ROOM_SEGMENTED};
use crate::{burst_cover, count_cover, mailbox_cover, mailbox_read_cover};
use crate::{ptype_cover, sixth_cover, verdict_cover};
use std::collections::BTreeMap;
use std::fmt::Write;

/// Which bits of a field came set and which came clear, among those that can be both.
#[derive(Clone, Copy)]
struct Bits {
    free: u64,
    set: u64,
    clear: u64,
}

#[derive(Clone)]
pub struct Seen {
    answers: BTreeMap<(&'static str, u8, &'static str), u64>,
    fields: BTreeMap<&'static str, Bits>,
    families: [u64; 5],
}

impl Seen {
    pub fn new() -> Seen {
        Seen { answers: BTreeMap::new(), fields: BTreeMap::new(), families: [0; 5] }
    }

    pub fn answer(&mut self, call: &'static str, answer: u8, cause: &'static str) {
        *self.answers.entry((call, answer, cause)).or_insert(0) += 1;
    }

    /// A value of a field whose low `width` bits can all be set and clear.
    pub fn bits(&mut self, name: &'static str, width: u32, value: u64) {
        self.masked(name, bits(u64::MAX, width - 1, 0), value);
    }

    /// A value of a field whose bits in `free` can be set and clear.
    pub fn masked(&mut self, name: &'static str, free: u64, value: u64) {
        let field = self.fields.entry(name).or_insert(Bits { free, set: 0, clear: 0 });
        field.set |= value & free;
        field.clear |= !value & free;
    }

    /// A packet handed up, and the two words of its last slot.
    pub fn packet(&mut self, packet: &Packet, words: [u64; 2]) {
        self.bits("take COUNT", 3, packet.count);
        self.bits("take TOTAL", 17, packet.total);
        for place in 0..packet.count as usize {
            self.bits("take address", 64, packet.addresses[place]);
            self.bits("take length", 14, packet.lengths[place]);
        }
        for (name, value) in FIELD_NAMES.iter().zip(&packet.fields) {
            match *name {
                // always 1 in a last slot; FAMILY is counted by value
                "DD" | "EOP" => {}
                "FAMILY" => self.families[*value as usize] += 1,
                name => self.bits(name, width_of(name), *value),
            }
        }
        self.bits("write-back word 0", 64, words[0]);
        self.masked("write-back word 1", !0b11, words[1]);
        sixth_cover::fields(packet, words, self);
    }

    /// An accepted send, read from its descriptors.
    pub fn sent(&mut self, request: &Send) {
        self.bits("send TOKEN", 64, request.token);
        let mut descriptors = request.descriptors();
        if request.segmented {
            let context = descriptors.remove(0);
            // TLEN and MSS; type and TSO are always set
            self.masked("context word 1", FREE_CONTEXT, context[1]);
        }
        for words in descriptors {
            self.bits("data word 0", 64, words[0]);
            self.masked("data word 1", FREE_DATA, words[1]);
        }
    }

    pub fn interrupt(&mut self, offset: u64, word: u64) {
        self.masked("int WORD", FREE_INTERRUPT, word);
        // 0x3800 to 0x38FC and 0x5C00: bits that differ between them
        self.masked("int OFFSET", 0x64FC, offset);
    }

    pub fn add(&mut self, other: &Seen) {
        for (key, times) in &other.answers {
            *self.answers.entry(*key).or_insert(0) += times;
        }
        for (name, bits) in &other.fields {
            let empty = Bits { free: bits.free, set: 0, clear: 0 };
            let field = self.fields.entry(*name).or_insert(empty);
            field.set |= bits.set;
            field.clear |= bits.clear;
        }
        for (mine, theirs) in self.families.iter_mut().zip(other.families) {
            *mine += theirs;
        }
    }
}

/// EOP, RS, IL2TAG1, IIPT, L4T, the three header lengths, length and tag.
const FREE_DATA: u64 = 0xFFFF_FFFF_FFFF_36B0;
/// TLEN 47:30 and MSS 63:50.
const FREE_CONTEXT: u64 = 0xFFFC_FFFF_C000_0000;
/// INTENA to INTERVAL (16:0), SW_ITR_INDX_ENA to SW_ITR_INDX (26:24), WB_ON_ITR, INTENA_MSK.
const FREE_INTERRUPT: u64 = 0xC701_FFFF;

fn width_of(field: &str) -> u32 {
    match field {
        "VLAN" => 16,
        "HASH" => 32,
        "PTYPE" => 8,
        "UMBCAST" | "FLTSTAT" | "L3" | "L4" => 2,
        _ => 1,
    }
}

/// Every answer that a call can give (`out` has none; a sum, `ptype` and `bad` have no number and
/// stand as 0).
const PAIRS: [(&str, &[u8]); 29] = [
    ("rx", &[0, 1]),
    ("post", &[0, 1, 2, 3]),
    ("take", &[0, 1, 4, 5]),
    ("burst", &[0, 1, 4, 5, 10]),
    ("rxtail", &[0, 1]),
    ("rxreg", &[0, 1]),
    ("rxsum", &[0]),
    ("tx", &[0, 1]),
    ("send", &[0, 1, 2, 3, 6, 7, 8]),
    ("reclaim", &[0, 1, 4, 5]),
    ("txtail", &[0, 1]),
    ("txreg", &[0, 1]),
    ("txsum", &[0]),
    ("int", &[0, 9]),
    ("ptype", &[0]),
    ("mtx", &[0, 1]),
    ("msend", &[0, 1, 2, 3, 11, 12]),
    ("mshut", &[0, 1, 3, 12]),
    ("mdone", &[0, 1, 4, 5, 11]),
    ("mtxtail", &[0, 1]),
    ("mtxreg", &[0, 1]),
    ("mtxsum", &[0]),
    ("mrx", &[0, 1]),
    ("mpost", &[0, 1, 2, 3, 11]),
    ("mread", &[0, 1, 4, 5, 11]),
    ("mrxtail", &[0, 1]),
    ("mrxreg", &[0, 1]),
    ("mrxsum", &[0]),
    ("bad", &[0]),
];

const ASKED_RX: &[&str] = &[
    "queue number above 3",
    "size below 32",
    "size above 4,096",
    "size off its steps",
    "buffer size below 1,024",
    "buffer size above 16,256",
    "buffer size off its steps",
];

const ASKED_TX: &[&str] = &[
    "queue number above 3",
    "size below 32",
    "size above 4,096",
    "size off its steps",
    "maximum frame below 1,518",
    "maximum frame above 9,728",
];

const HANDED_IN: &[&str] = &["head not below size", "posted above size - 1"];
const LENT_RX: &[&str] = &["ring too short", "ring too long", "list too short", "list too long"];
const LENT_TX: &[&str] = &[
    "ring too short",
    "ring too long",
    "tokens too short",
    "tokens too long",
    "counts too short",
    "counts too long",
];

const BUFFER_CAUSES: &[&str] = &["address 0", "address + length passes 2^64"];

/// The packets that are handed up: their slots with data, and whether a dummy follows.
pub const TAKEN: [&str; 2 * DATA_SLOTS] = [
    "1 slot with data",
    "1 slot with data and a dummy",
    "2 slots with data",
    "2 slots with data and a dummy",
    "3 slots with data",
    "3 slots with data and a dummy",
    "4 slots with data",
    "4 slots with data and a dummy",
    "5 slots with data",
    "5 slots with data and a dummy",
];

pub fn packet_kind(packet: &Packet) -> &'static str {
    let with_data = packet.lengths.iter().filter(|length| **length > 0).count();
    let dummies = packet.count as usize - with_data;
    TAKEN[2 * (with_data - 1) + dummies]
}

const SENT: &[&str] = &[
    "plain, IP none",
    "plain IPv6",
    "plain IPv6 TCP",
    "plain IPv6 SCTP",
    "plain IPv6 UDP",
    "plain IPv4",
    "plain IPv4 TCP",
    "plain IPv4 SCTP",
    "plain IPv4 UDP",
    "plain IPv4 checksum",
    "plain IPv4 checksum TCP",
    "plain IPv4 checksum SCTP",
    "plain IPv4 checksum UDP",
    "segmented IPv4",
    "segmented IPv6",
    "segmented, a segment touches 8",
    "segmented, 4,094 pieces",
];
const WRONG_LENGTHS: &[&str] = &[
    "lists differ in length",
    "no piece",
    "more than 8 pieces",
    "more than 4,094 pieces",
    "a length of 0",
    "a length above 16,383",
    "total not header + TLEN",
    "total below 17",
    "total above the maximum frame",
];
const WRONG_OFFLOAD: &[&str] = &[
    "IP none with an L4 kind",
    "IP none with a length",
    "IP none segmented",
    "MAC below 14",
    "MAC above 254",
    "MAC odd",
    "IPv4 below 20",
    "IPv4 above 60",
    "IPv4 not in fours",
    "IPv6 below 40",
    "IPv6 above 508",
    "IPv6 not in fours",
    "L4 none with a length",
    "TCP below 20",
    "TCP above 60",
    "TCP not in fours",
    "SCTP length not 12",
    "UDP length not 8",
    "tag not asked for",
    "tag above 65,535",
    "header above the total",
    "MSS not segmented",
    "TLEN not segmented",
    "segmented without TCP",
    "segmented IPv4 without checksum",
    "header above 512",
    "header past the third piece",
    "TLEN 0",
    "TLEN above 262,143",
    "MSS below 88",
    "MSS above frame - header",
];
const CROWDED: &[&str] =
    &["segment 0 touches more than 8", "first a later segment", "only the last segment"];

const UNFIT_COUNT: &[&str] = &["count 0", "count above posted"];
const NOT_DONE: &[&str] = &["posted 0", "last slot not marked"];

const ENABLES: &[&str] = &["off", "on", "leave"];
const WRONG_INTERRUPT: &[&str] = &[
    "vector above 64",
    "trigger index above 3",
    "index above 3",
    "interval above 8,160",
    "interval odd",
    "interval not 0 with index 3",
    "trigger index without a trigger",
    "write-back-on-ITR with on",
    "write-back-on-ITR with leave",
];

const BAD: &[&str] = &[
    "longer line",
    "unknown word",
    "empty word",
    "missing number",
    "extra number",
    "a byte that does not belong",
    "more than twenty digits",
    "number above 2^64 - 1",
    "length beyond the memory held",
    "index beyond the memory held",
    "index beyond the burst's list",
    "length beyond the burst's list",
    "count above 65,535",
    "flag above 1",
    "kind above its last",
    "packet type above 255",
    "byte above 255",
    "value above 2^32 - 1",
    "index beyond a mailbox ring",
    "index beyond a mailbox list",
    "index beyond the mailbox buffer",
    "length beyond a mailbox ring",
    "length beyond a mailbox list",
    "length beyond the mailbox buffer",
];

/// Every clause behind an answer that a call can give.
const CAUSES: &[(&str, u8, &[&str])] = &[
    ("rx", 1, ASKED_RX),
    ("post", 1, ASKED_RX),
    ("post", 1, HANDED_IN),
    ("post", 1, count_cover::DISAGREE),
    ("post", 1, LENT_RX),
    ("post", 2, BUFFER_CAUSES),
    ("post", 3, &receive::NO_ROOM),
    ("take", 0, &TAKEN),
    ("take", 1, ASKED_RX),
    ("take", 1, HANDED_IN),
    ("take", 1, count_cover::DISAGREE),
    ("take", 1, LENT_RX),
    ("take", 4, &receive::NOT_POSTED),
    ("take", 4, &receive::NOT_WRITTEN),
    ("take", 5, &receive::TOO_LONG),
    ("take", 5, &receive::EMPTY_NOT_LAST),
    ("take", 5, &[receive::EMPTY_FIRST]),
    ("take", 5, &receive::SIXTH_WITH_DATA),
    ("burst", 0, burst_cover::LIMITS),
    ("burst", 1, ASKED_RX),
    ("burst", 1, HANDED_IN),
    ("burst", 1, count_cover::DISAGREE),
    ("burst", 1, LENT_RX),
    ("burst", 1, burst_cover::LENT_OUT),
    ("burst", 4, &receive::NOT_POSTED),
    ("burst", 4, &receive::NOT_WRITTEN),
    ("burst", 5, &receive::TOO_LONG),
    ("burst", 5, &receive::EMPTY_NOT_LAST),
    ("burst", 5, &[receive::EMPTY_FIRST]),
    ("burst", 5, &receive::SIXTH_WITH_DATA),
    ("burst", 10, burst_cover::WRONG_LIMIT),
    ("rxtail", 1, ASKED_RX),
    ("rxtail", 1, HANDED_IN),
    ("rxtail", 1, count_cover::DISAGREE),
    ("rxreg", 1, ASKED_RX),
    ("rxreg", 1, HANDED_IN),
    ("rxreg", 1, count_cover::DISAGREE),
    ("tx", 1, ASKED_TX),
    ("send", 0, SENT),
    ("send", 1, ASKED_TX),
    ("send", 1, HANDED_IN),
    ("send", 1, count_cover::DISAGREE),
    ("send", 1, LENT_TX),
    ("send", 2, BUFFER_CAUSES),
    ("send", 3, &NO_ROOM_PLAIN),
    ("send", 3, &NO_ROOM_SEGMENTED),
    ("send", 6, WRONG_LENGTHS),
    ("send", 7, WRONG_OFFLOAD),
    ("send", 8, CROWDED),
    ("reclaim", 1, ASKED_TX),
    ("reclaim", 1, HANDED_IN),
    ("reclaim", 1, count_cover::DISAGREE),
    ("reclaim", 1, LENT_TX),
    ("reclaim", 4, NOT_DONE),
    ("reclaim", 5, UNFIT_COUNT),
    ("txtail", 1, ASKED_TX),
    ("txtail", 1, HANDED_IN),
    ("txtail", 1, count_cover::DISAGREE),
    ("txreg", 1, ASKED_TX),
    ("txreg", 1, HANDED_IN),
    ("txreg", 1, count_cover::DISAGREE),
    ("int", 0, ENABLES),
    ("int", 9, WRONG_INTERRUPT),
    ("bad", 0, BAD),
];

/// Every field whose bits are counted, so that one never met is a gap too.
const COUNTED: [&str; 32] = [
    "post address",
    "take COUNT",
    "take TOTAL",
    "take address",
    "take length",
    "VLAN",
    "HASH",
    "L2TAG1P",
    "L3L4P",
    "CRCP",
    "UMBCAST",
    "FLTSTAT",
    "LPBK",
    "IPV6EXADD",
    "INT_UDP_0",
    "L3",
    "L4",
    "OVERSIZE",
    "PTYPE",
    "write-back word 0",
    "write-back word 1",
    "rxtail",
    "send TOKEN",
    "context word 1",
    "data word 0",
    "data word 1",
    "reclaim TOKEN",
    "reclaim COUNT",
    "txtail",
    "int WORD",
    "int OFFSET",
    "FAMILY",
];

impl Seen {
    fn times(&self, call: &str, answer: u8) -> u64 {
        let of_pair = |key: &(&str, u8, &str)| key.0 == call && key.1 == answer;
        self.answers.iter().filter(|(key, _)| of_pair(key)).map(|(_, times)| times).sum()
    }

    /// The table of pairs, clauses and fields, and how many gaps it has.
    pub fn table(&self, every_clause: bool) -> (String, usize) {
        let mut text = String::from("call answer times\n");
        let mut gaps = 0;
        for (call, answers) in PAIRS {
            for answer in answers {
                let times = self.times(call, *answer);
                gaps += usize::from(times == 0);
                let _ = writeln!(text, "{call} {answer} {times}{}", mark(times));
            }
        }
        gaps += self.clauses(every_clause, &mut text);
        gaps += self.field_bits(&mut text);
        let _ = writeln!(text, "gaps {gaps}");
        (text, gaps)
    }

    fn clauses(&self, every_clause: bool, text: &mut String) -> usize {
        let (mut clauses, mut met, mut gaps) = (0, 0, 0);
        let beside = burst_cover::CAUSES.iter().chain(count_cover::CAUSES);
        let beside = beside.chain(sixth_cover::CAUSES).chain(ptype_cover::CAUSES);
        let beside = beside.chain(verdict_cover::CAUSES).chain(mailbox_cover::CAUSES);
        let beside = beside.chain(mailbox_read_cover::CAUSES);
        for (call, answer, causes) in CAUSES.iter().chain(beside) {
            for cause in *causes {
                let times = self.answers.get(&(*call, *answer, *cause)).copied().unwrap_or(0);
                clauses += 1;
                met += usize::from(times > 0);
                gaps += usize::from(times == 0);
                if every_clause || times == 0 {
                    let _ = writeln!(text, "{call} {answer} {times} : {cause}{}", mark(times));
                }
            }
        }
        let _ = writeln!(text, "clauses behind the answers: {met} of {clauses} met");
        gaps
    }

    fn field_bits(&self, text: &mut String) -> usize {
        let (mut full, mut gaps) = (0, 0);
        for name in counted() {
            let missing = self.missing(name);
            if missing.is_empty() {
                full += 1;
                continue;
            }
            gaps += 1;
            let _ = writeln!(text, "field {name}: {missing} MISSING");
        }
        let _ =
            writeln!(text, "fields with each bit set and clear: {full} of {}", counted().count());
        gaps
    }

    fn missing(&self, name: &str) -> String {
        if name == "FAMILY" {
            let never = self.families.contains(&0);
            return if never { format!("{:?}", self.families) } else { String::new() };
        }
        match self.fields.get(name) {
            None => "never met".to_string(),
            Some(bits) if bits.set == bits.free && bits.clear == bits.free => String::new(),
            Some(bits) => {
                format!("set {:#x} clear {:#x}", bits.free & !bits.set, bits.free & !bits.clear)
            }
        }
    }
}

fn counted() -> impl Iterator<Item = &'static str> {
    let beside = burst_cover::COUNTED.into_iter().chain(count_cover::COUNTED);
    let beside = beside.chain(sixth_cover::COUNTED).chain(ptype_cover::COUNTED);
    let beside = beside.chain(verdict_cover::COUNTED).chain(mailbox_cover::COUNTED);
    COUNTED.into_iter().chain(beside).chain(mailbox_read_cover::COUNTED)
}

fn mark(times: u64) -> &'static str {
    if times == 0 {
        " MISSING"
    } else {
        ""
    }
}
