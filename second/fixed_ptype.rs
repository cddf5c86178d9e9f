//! The fixed script's part on packet types: each number, numbers above 255, and that a look-up
//! touches no queue.

use crate::author::Author;

pub fn all(author: &mut Author) {
    author.say("# packet types: each number, between calls that show that nothing changed");
    author.say("rx 2 64 2048");
    author.say("post 8192");
    author.say("tx 2 64 1518");
    author.say("send 9 0 0 0 0 0 0 0 0 0 0 1 1 4096 60");
    calls(author);
    for number in 0..256 {
        author.say(format!("ptype {number}"));
    }
    calls(author);
    too_large(author);
    again(author);
    calls(author);
}

/// Calls that show where both queues stand, and what is lent.
fn calls(author: &mut Author) {
    for call in ["take", "burst 33 96", "rxtail", "rxsum", "reclaim", "txtail", "txsum"] {
        author.say(call);
    }
}

/// Numbers above 255, most of them with low bits that are a number of the table.
fn too_large(author: &mut Author) {
    author.say("# packet types: numbers above 255");
    for power in [8, 9, 10, 16, 31, 32, 63] {
        for low in [0, 1, 26] {
            author.say(format!("ptype {}", (1u64 << power) + low));
        }
    }
    for number in [266, 267, 268, 278, 350, 511, u64::MAX - 255 + 92, u64::MAX] {
        author.say(format!("ptype {number}"));
    }
}

/// Leading zeros, and numbers again and out of their order.
fn again(author: &mut Author) {
    author.say("# packet types: leading zeros, and numbers again");
    for number in ["00", "026", "0000000000000000000", "00000000000000000094"] {
        author.say(format!("ptype {number}"));
    }
    for number in [26, 26, 25, 22, 12, 88, 255, 0, 1] {
        author.say(format!("ptype {number}"));
    }
}
