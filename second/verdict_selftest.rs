//! The checks of verdicts: words and lines worked out by hand, and every packet type with every
//! combination of the bits that decide, held against a table that is typed out.

use crate::answers;
use crate::author::Random;
use crate::receive::{self, VERDICTS};
use crate::selftest::Checks;

pub fn all(checks: &mut Checks) {
    words(checks);
    every_word(checks);
    error_bits_alone(checks);
    other_bits(checks);
    error_field(checks);
    lines(checks);
}

/// L3's verdict and L4's, as they print.
fn said(word1: u64) -> [u64; 2] {
    let fields = receive::fields(0, word1);
    VERDICTS.map(|place| fields[place])
}

/// Whole words, in the order of 02's sentences. 01's is the first of those that are good; 64 bytes
/// each.
const WORDS: [(&str, u64, [u64; 2]); 30] = [
    ("TCP without L3L4P", 0x1006_8000_0003, [0, 0]),
    ("TCP without L3L4P, both error bits", 0x1006_80C0_0003, [0, 0]),
    ("IPv6 UDP without L3L4P, INT_UDP_0", 0x1016_8004_0003, [0, 0]),
    ("type 0", 0x1000_0000_000B, [0, 0]),
    ("type 12, both error bits", 0x1003_00C0_000B, [0, 0]),
    ("type 25, both error bits", 0x1006_40C0_000B, [0, 0]),
    ("type 91, INT_UDP_0", 0x1016_C004_000B, [0, 0]),
    ("type 255, both error bits", 0x103F_C0C0_000B, [0, 0]),
    ("plain MAC, both error bits", 0x1000_40C0_000B, [0, 0]),
    ("ARP, both error bits", 0x1002_C0C0_000B, [0, 0]),
    ("01's write-back", 0x1006_8000_000B, [1, 1]),
    ("TCP with IPE", 0x1006_8040_000B, [2, 1]),
    ("TCP with L4E", 0x1006_8080_000B, [1, 2]),
    ("TCP with both", 0x1006_80C0_000B, [2, 2]),
    ("IPv6 TCP with IPE", 0x1017_0040_000B, [0, 1]),
    ("IPv6 TCP with L4E", 0x1017_0080_000B, [0, 2]),
    ("IPv4 fragment, L4E", 0x1005_8080_000B, [1, 0]),
    ("IPv6 fragment, L4E", 0x1016_0080_000B, [0, 0]),
    ("IPv4 ICMP, both error bits", 0x1007_00C0_000B, [2, 0]),
    ("IPv6 ICMP, INT_UDP_0", 0x1017_8004_000B, [0, 0]),
    ("IPv4 and no more, L4E", 0x1005_C080_000B, [1, 0]),
    ("IPv6 and no more, L4E", 0x1016_4080_000B, [0, 0]),
    ("IPv4 UDP, INT_UDP_0", 0x1006_0004_000B, [1, 0]),
    ("IPv4 UDP, INT_UDP_0 and L4E", 0x1006_0084_000B, [1, 0]),
    ("IPv6 UDP, INT_UDP_0", 0x1016_8004_000B, [0, 2]),
    ("IPv6 UDP, INT_UDP_0 and IPV6EXADD", 0x1016_8004_800B, [0, 2]),
    ("IPv6 UDP, IPV6EXADD and L4E", 0x1016_8080_800B, [0, 0]),
    ("IPv4 SCTP, IPV6EXADD and L4E", 0x1006_C080_800B, [1, 0]),
    ("IPv4 SCTP, INT_UDP_0", 0x1006_C004_000B, [1, 1]),
    ("IPv6 SCTP, INT_UDP_0 and L4E", 0x1017_4084_000B, [0, 2]),
];

fn words(checks: &mut Checks) {
    for (name, word1, wanted) in WORDS {
        checks.equal(name, said(word1), wanted);
    }
}

/// What is said with L3L4P set: `-` not checked, `g` good, `b` bad. In each cell the first is said
/// with the error bit clear and the second with it set: IPE for L3, and L4E for L4. A type that has
/// no row is `-` throughout, and so is each without L3L4P.
const TABLE: &str = "\
type | L3  | L4  | IPV6EXADD | INT_UDP_0 | both
1    | - - | - - | - -       | - -       | - -
11   | - - | - - | - -       | - -       | - -
22   | g b | - - | - -       | - -       | - -
23   | g b | - - | - -       | - -       | - -
24   | g b | g b | - -       | - -       | - -
26   | g b | g b | - -       | g b       | - -
27   | g b | g b | - -       | g b       | - -
28   | g b | - - | - -       | - -       | - -
88   | - - | - - | - -       | - -       | - -
89   | - - | - - | - -       | - -       | - -
90   | - - | g b | - -       | b b       | b b
92   | - - | g b | - -       | g b       | - -
93   | - - | g b | - -       | g b       | - -
94   | - - | - - | - -       | - -       | - -";

/// The five bits: which are set.
#[derive(Clone, Copy, Debug)]
struct Bits {
    l3l4p: bool,
    ipv6exadd: bool,
    int_udp_0: bool,
    ipe: bool,
    l4e: bool,
}

impl Bits {
    fn combinations() -> impl Iterator<Item = Bits> {
        (0..32).map(|number| Bits {
            l3l4p: number & 1 > 0,
            ipv6exadd: number & 2 > 0,
            int_udp_0: number & 4 > 0,
            ipe: number & 8 > 0,
            l4e: number & 16 > 0,
        })
    }

    /// Word 1 of a last slot of 64 bytes.
    fn word(&self, packet_type: u64) -> u64 {
        let mut word = 0x1000_0000_0003 + 0x4000_0000 * packet_type;
        for (set, value) in [
            (self.l3l4p, 0x8),
            (self.ipv6exadd, 0x8000),
            (self.int_udp_0, 0x4_0000),
            (self.ipe, 0x40_0000),
            (self.l4e, 0x80_0000),
        ] {
            word += if set { value } else { 0 };
        }
        word
    }

    /// The table's verdicts.
    fn wanted(&self, packet_type: u64) -> [u64; 2] {
        let number = packet_type.to_string();
        let rows: Vec<Vec<&str>> = TABLE.lines().map(|row| row.split('|').collect()).collect();
        let Some(row) = rows.iter().find(|row| row[0].trim() == number) else { return [0, 0] };
        if !self.l3l4p {
            return [0, 0];
        }
        let column = 2 + usize::from(self.ipv6exadd) + 2 * usize::from(self.int_udp_0);
        [in_cell(row[1], self.ipe), in_cell(row[column], self.l4e)]
    }
}

fn in_cell(cell: &str, error: bool) -> u64 {
    match cell.split_whitespace().nth(usize::from(error)) {
        Some("-") => 0,
        Some("g") => 1,
        _ => 2,
    }
}

/// All words by the table, and how often each verdict comes.
fn every_word(checks: &mut Checks) {
    let mut times = [[0; 3]; 2];
    for packet_type in 0..256 {
        for bits in Bits::combinations() {
            let found = said(bits.word(packet_type));
            checks.equal(&format!("type {packet_type}, {bits:?}"), found, bits.wanted(packet_type));
            for (times, verdict) in times.iter_mut().zip(found) {
                times[verdict as usize] += 1;
            }
        }
    }
    // six IPv4 types with L3L4P, by IPE, and any of the three other bits
    checks.equal("L3 verdicts", times[0], [256 * 32 - 2 * 6 * 8, 6 * 8, 6 * 8]);
    // with L3L4P and any IPE, by L4E: TCP and SCTP of both versions with any INT_UDP_0, and UDP of
    // both without it; and IPv6 UDP with it, whatever the three other bits
    let (decided, bad) = (4 * 4 + 2 * 2, 8);
    checks.equal("L4 verdicts", times[1], [256 * 32 - 2 * decided - bad, decided, decided + bad]);
}

/// Two words that differ in IPE alone read alike, unless L3 is good of one and bad of the other;
/// L4E likewise. No other field tells them apart.
fn error_bits_alone(checks: &mut Checks) {
    let mut told_apart = [0; 2];
    for (which, error) in [0x40_0000, 0x80_0000].into_iter().enumerate() {
        let words = (0..256).flat_map(|number| Bits::combinations().map(move |b| b.word(number)));
        for word in words.filter(|word| word & error == 0) {
            let (clear, set) = (receive::fields(0, word), receive::fields(0, word + error));
            let mut wanted = clear;
            if set != clear {
                told_apart[which] += 1;
                checks.equal("without its error bit", clear[VERDICTS[which]], 1);
                wanted[VERDICTS[which]] = 2;
            }
            checks.equal("an error bit alone", set, wanted);
        }
    }
    // as many as an error bit decides
    checks.equal("words told apart", told_apart, [6 * 8, 4 * 4 + 2 * 2]);
}

/// No bit beside the five and the type has a say: those that can be either way, all set or random.
fn other_bits(checks: &mut Checks) {
    let mut random = Random::new(104);
    for packet_type in 0..256 {
        for bits in Bits::combinations() {
            let word = bits.word(packet_type);
            let rest = 0xFFF0_0000_3F3B_7FF4;
            for others in [rest, rest & random.next()] {
                let name = format!("type {packet_type}, {bits:?}, others {others:#x}");
                checks.equal(&name, said(word | others), said(word));
            }
        }
    }
}

/// Each bit of 01's error field alone, on its write-back: OVERSIZE stays as it was.
fn error_field(checks: &mut Checks) {
    for (bit, wanted) in (19..).zip([
        [1, 1, 0],
        [1, 1, 0],
        [1, 1, 0],
        [2, 1, 0],
        [1, 2, 0],
        [1, 1, 0],
        [1, 1, 1],
        [1, 1, 0],
    ]) {
        let fields = receive::fields(0, 0x1006_8000_000B | 1 << bit);
        checks.equal(&format!("bit {bit}"), [fields[12], fields[13], fields[14]], wanted);
    }
}

/// Whole lines: where the verdicts stand, that the last slot decides, and that a refused take says
/// nothing.
fn lines(checks: &mut Checks) {
    let set = "rxset 1 32 30 3 13 10 2048 64 32\nrxlist 30 500\nrxlist 31 600\nrxlist 0 700\n";
    // TCP with IPE: L3 bad, L4 good. Then two slots: TCP with both error bits and no EOP, and IPv6
    // UDP with INT_UDP_0: not checked, bad. Then nothing is posted
    let one = format!("rxpoke 61 {}\ntake\n", 0x1006_8040_000B_u64);
    let two = format!("rxpoke 63 {}\ntake\n", 0x1006_80C0_0009_u64);
    let end = format!("rxpoke 1 {}\ntake\ntake", 0x1016_8004_000B_u64);
    let none = " 0".repeat(31);
    let rest = " 0".repeat(10);
    let wanted = format!(
        "take 0 31 2 13 11 1 64 500 64{rest} 0 0 1 1 0 1 0 0 0 0 0 0 2 1 0 26 3\n\
         take 4 31 2 13 11{none}\n\
         take 0 1 0 13 13 2 128 600 64 700 64{} 0 0 1 1 0 1 0 0 0 0 0 1 0 2 0 90 4\n\
         take 4 1 0 13 13{none}\n",
        " 0".repeat(8)
    );
    checks.equal("lines", answers(format!("{set}{one}{two}{end}").as_bytes()).0, wanted);
    // a length above the buffer size, both checksums good
    let wrong = format!("{set}rxpoke 61 {}\ntake", 0x8_1006_8000_000B_u64);
    let refused = format!("take 5 30 3 13 10{none}\n");
    checks.equal("a refused take", answers(wrong.as_bytes()).0, refused);
}
