//! The checks of packet types: what 02 says of the table, over every number, and each number's line
//! written out by hand.

use crate::answers;
use crate::packet_type::{look_up, PacketType};
use crate::receive;
use crate::selftest::Checks;

pub fn all(checks: &mut Checks) {
    by_hand(checks);
    families(checks);
    both_versions(checks);
    fragments(checks);
    lines(checks);
    nothing_changes(checks);
}

/// Every number that is known, and its line.
const KNOWN: [(u8, &str); 14] = [
    (1, "ptype 1 0 0 0"),
    (11, "ptype 2 0 0 0"),
    (22, "ptype 3 4 1 0"),
    (23, "ptype 3 4 0 0"),
    (24, "ptype 3 4 0 3"),
    (26, "ptype 3 4 0 1"),
    (27, "ptype 3 4 0 2"),
    (28, "ptype 3 4 0 4"),
    (88, "ptype 4 6 1 0"),
    (89, "ptype 4 6 0 0"),
    (90, "ptype 4 6 0 3"),
    (92, "ptype 4 6 0 1"),
    (93, "ptype 4 6 0 2"),
    (94, "ptype 4 6 0 4"),
];

fn by_hand(checks: &mut Checks) {
    for number in 0..=u8::MAX {
        let known = KNOWN.iter().find(|(known, _)| *known == number);
        let wanted = known.map_or("ptype 0 0 0 0", |(_, line)| line);
        let (found, _) = answers(format!("ptype {number}").as_bytes());
        checks.equal(&format!("type {number}"), found, format!("{wanted}\n"));
    }
}

/// The table agrees with 01's families, which take has by their ranges; the version goes by the
/// family, and an unknown type says nothing.
fn families(checks: &mut Checks) {
    for number in 0..=u8::MAX {
        let said = look_up(number);
        let family = receive::family(u64::from(number));
        checks.equal(&format!("family of type {number}"), said.family, family);
        let version = match family {
            3 => 4,
            4 => 6,
            _ => 0,
        };
        checks.equal(&format!("version of type {number}"), said.version, version);
        if family == 0 {
            let name = format!("unknown type {number}");
            checks.equal(&name, said, PacketType::default());
        }
    }
}

/// 88 to 94 match 22 to 28 in all but family and version.
fn both_versions(checks: &mut Checks) {
    for number in 22..=28 {
        let four = look_up(number);
        let six = PacketType { family: four.family, version: four.version, ..look_up(number + 66) };
        checks.equal(&format!("types {number} and {}", number + 66), six, four);
    }
}

/// Two types are fragments, and neither has an L4 kind.
fn fragments(checks: &mut Checks) {
    let fragments: Vec<u8> =
        (0..=u8::MAX).filter(|number| look_up(*number).fragment == 1).collect();
    for number in &fragments {
        checks.equal(&format!("L4 kind of fragment {number}"), look_up(*number).l4, 0);
    }
    checks.equal("fragments", fragments, vec![22, 88]);
}

fn lines(checks: &mut Checks) {
    let said = |script: &str| answers(script.as_bytes()).0;
    let tcp = "ptype 3 4 0 1\n".to_string();
    checks.equal("twenty digits", said("ptype 00000000000000000026"), tcp);
    let above: Vec<String> =
        [256, 257, 282, 511, 512, 1 << 32, u64::MAX].map(|n| format!("ptype {n}")).to_vec();
    let wrong = ["", " ", " -1", " +26", " 26 ", "  26", " 26 26", " 0x1A", "26", "s 26"];
    let wrong: Vec<String> = wrong.iter().map(|rest| format!("ptype{rest}")).collect();
    let long = ["ptype 18446744073709551616", "ptype 000000000000000000026"].map(String::from);
    for line in above.iter().chain(&wrong).chain(&long) {
        checks.equal(line, said(line), "bad 1\n".to_string());
    }
}

/// The calls answer as they do without the look-ups before them.
fn nothing_changes(checks: &mut Checks) {
    let queues = "rx 3 64 2048\npost 4096\ntx 3 64 1518\nsend 9 0 0 0 0 0 0 0 0 0 0 1 1 4096 60\n";
    let calls = "rxtail\nrxreg\nrxsum\npost 8192\ntake\nburst 33 96\n\
        txtail\ntxreg\ntxsum\nreclaim\ntxpoke 1 15\nreclaim";
    let (wanted, _) = answers(format!("{queues}{calls}").as_bytes());
    let (found, _) = answers(format!("{queues}ptype 26\nptype 255\n{calls}").as_bytes());
    let found = found.replace("ptype 3 4 0 1\nptype 0 0 0 0\n", "");
    checks.equal("calls after look-ups", found, wanted);
}
