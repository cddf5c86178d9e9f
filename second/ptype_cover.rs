//! What a script met of packet types: the numbers looked up, and all that a look-up can say.

use crate::cover::Seen;
use crate::packet_type::PacketType;

/// The numbers that Table 2-4 lists.
const LISTED: [&str; 18] = [
    "0", "1", "11", "12", "22", "23", "24", "25", "26", "27", "28", "88", "89", "90", "91", "92",
    "93", "94",
];

/// The first and the last number of each gap between them, and what lies within it.
const GAP_ENDS: [&str; 8] = ["2", "10", "13", "21", "29", "87", "95", "255"];
const WITHIN: [&str; 4] = ["3 to 9", "14 to 20", "30 to 86", "96 to 254"];

/// Family, version, fragment and L4 kind, as they print.
const SAYS: [&str; 15] = [
    "0 0 0 0", "1 0 0 0", "2 0 0 0", "3 4 0 0", "3 4 0 1", "3 4 0 2", "3 4 0 3", "3 4 0 4",
    "3 4 1 0", "4 6 0 0", "4 6 0 1", "4 6 0 2", "4 6 0 3", "4 6 0 4", "4 6 1 0",
];

/// The names under which the clauses stand in the table; `ptype` has no answer and stands as 0.
const PTYPE: &str = "ptype";
const SAID: &str = "ptype says";

/// Every clause of a look-up, as in the table of the calls.
pub const CAUSES: &[(&str, u8, &[&str])] =
    &[(PTYPE, 0, &LISTED), (PTYPE, 0, &GAP_ENDS), (PTYPE, 0, &WITHIN), (SAID, 0, &SAYS)];

/// The fields whose bits are counted.
pub const COUNTED: [&str; 1] = ["ptype N"];

/// A look-up that was made.
pub fn looked_up(number: u8, said: &PacketType, seen: &mut Seen) {
    seen.bits("ptype N", 8, u64::from(number));
    let alone = number.to_string();
    for clause in LISTED.iter().chain(&GAP_ENDS) {
        if *clause == alone {
            seen.answer(PTYPE, 0, clause);
        }
    }
    for clause in WITHIN {
        if is_within(number, clause) {
            seen.answer(PTYPE, 0, clause);
        }
    }
    let numbers = said.numbers().map(|number| number.to_string()).join(" ");
    for clause in SAYS {
        if clause == numbers {
            seen.answer(SAID, 0, clause);
        }
    }
}

fn is_within(number: u8, clause: &str) -> bool {
    let ends: Vec<u8> = clause.split(" to ").filter_map(|end| end.parse().ok()).collect();
    ends[0] <= number && number <= ends[1]
}
