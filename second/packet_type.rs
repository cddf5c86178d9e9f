//! What a packet type number says (M-103), read from the words of Table 2-4.

/// The table as Intel prints it: two columns of numbers, each with its words behind it, and a
/// footnote below. A bar stands between the cells of a row.
const TABLE: &str = "\
PTYPE | Description | PTYPE | Description
L2 Packet Types
0 | Reserved | 11 | MAC, ARP
1 | MAC, PAY2 | 12 | MAC, PAY3 \u{b9}
1. PTYPE 12 should be ignored.
PTYPE | Description | PTYPE | Description
Non-tunneled IPv4 | Non-tunneled IPv6
22 | MAC, IPv4FRAG, PAY3 | 88 | MAC, IPv6+IPv6FRAG, PAY3
23 | MAC, IPv4, PAY3 | 89 | MAC, IPv6, PAY3
24 | MAC, IPv4, UDP, PAY4 | 90 | MAC, IPv6, UDP, PAY4
25 | Reserved | 91 | Reserved
26 | MAC, IPv4, TCP, PAY4 | 92 | MAC, IPv6, TCP, PAY4
27 | MAC, IPv4, SCTP, PAY4 | 93 | MAC, IPv6, SCTP, PAY4
28 | MAC, IPv4, ICMP, PAY4 | 94 | MAC, IPv6, ICMP, PAY4";

/// The families as they print, by their place here.
const FAMILIES: [&str; 5] = ["unknown", "plain MAC", "ARP", "IPv4", "IPv6"];

/// The L4 kinds as they print, by their place here.
const L4_KINDS: [&str; 5] = ["none", "TCP", "SCTP", "UDP", "ICMP"];

/// Each as it prints; an unknown type has 0 everywhere.
#[derive(Clone, Copy, Debug, Default, PartialEq, Eq)]
pub struct PacketType {
    pub family: u64,
    /// 0 (none), 4 or 6.
    pub version: u64,
    pub fragment: u64,
    pub l4: u64,
}

impl PacketType {
    /// In the order in which they print.
    pub fn numbers(&self) -> [u64; 4] {
        [self.family, self.version, self.fragment, self.l4]
    }

    pub fn is_of(&self, family: &str) -> bool {
        self.family == place(family, &FAMILIES)
    }

    pub fn is_fragment(&self) -> bool {
        self.fragment == 1
    }

    /// Whether this is its L4 kind; "none" if it has none.
    pub fn has(&self, l4: &str) -> bool {
        self.l4 == place(l4, &L4_KINDS)
    }
}

/// What the table says of this number. One that it does not list, reserves or asks to ignore is
/// unknown.
pub fn look_up(number: u8) -> PacketType {
    match description(number) {
        None | Some("Reserved") => PacketType::default(),
        Some(_) if ignored(number) => PacketType::default(),
        Some(description) => read(description),
    }
}

/// The words in the cell behind the number's own.
fn description(number: u8) -> Option<&'static str> {
    let number = number.to_string();
    TABLE.lines().find_map(|row| {
        let mut cells = row.split(" | ");
        cells.find(|cell| *cell == number)?;
        cells.next()
    })
}

/// Whether a footnote says so.
fn ignored(number: u8) -> bool {
    let note = format!("PTYPE {number} should be ignored.");
    TABLE.lines().any(|row| row.ends_with(&note))
}

/// The words of a type that is known.
fn read(description: &str) -> PacketType {
    let words: Vec<&str> = description.split([',', '+', ' ']).collect();
    let has = |word: &str| words.contains(&word);
    let begins = |start: &str| words.iter().any(|word| word.starts_with(start));
    let (family, version) = match (begins("IPv4"), begins("IPv6")) {
        (true, _) => ("IPv4", 4),
        (_, true) => ("IPv6", 6),
        _ if has("ARP") => ("ARP", 0),
        _ => ("plain MAC", 0),
    };
    let fragment = words.iter().any(|word| word.ends_with("FRAG"));
    let l4 = L4_KINDS.into_iter().find(|kind| has(kind)).unwrap_or("none");
    PacketType {
        family: place(family, &FAMILIES),
        version,
        fragment: u64::from(fragment),
        l4: place(l4, &L4_KINDS),
    }
}

fn place(name: &str, names: &[&str]) -> u64 {
    names.iter().take_while(|other| **other != name).count() as u64
}
