//! The fixed script: what every limit and every bit asks for, then random lines.

use crate::author::Author;
use crate::script::LONGEST_LINE;
use crate::{aims, bad_lines};
use crate::{fixed_burst, fixed_counts, fixed_ptype, fixed_receive, fixed_sixth, fixed_transmit};
use crate::{fixed_mailbox, fixed_mailbox_read, fixed_verdict};

/// Random lines at the end, from a seed of their own.
const RANDOM_LINES: usize = 4_000;
const SEED: u64 = 2026;

/// Slots handed back before a record that the script hands in, so that neither of its counts is
/// another number of it.
pub const BEFORE: u64 = 70_000;

/// Word 1 of a slot of length 0 with EOP, its fields clear.
pub const DUMMY: u64 = 3;

pub fn script() -> Vec<u8> {
    let mut author = Author::new(SEED, usize::MAX);
    author.say("# Made by `second script`. Every call meets every answer that it can give, every");
    author.say("# limit is tried at its ends and one past them, every bit of every field is set");
    author.say("# and clear somewhere.");
    author.say("");
    fixed_receive::all(&mut author);
    fixed_burst::all(&mut author);
    fixed_sixth::all(&mut author);
    fixed_transmit::all(&mut author);
    fixed_counts::all(&mut author);
    fixed_ptype::all(&mut author);
    fixed_verdict::all(&mut author);
    fixed_mailbox::all(&mut author);
    fixed_mailbox_read::all(&mut author);
    bad(&mut author);
    author.say("# random lines");
    let end = author.lines() + RANDOM_LINES;
    while author.lines() < end {
        aims::any(&mut author);
    }
    let mut text = author.into_text();
    // the last line lacks its line end
    text.extend_from_slice(b"rxsum");
    text
}

fn bad(author: &mut Author) {
    author.say("# lines that are of no form, between calls that show that nothing changed");
    author.say("rx 1 32 2048");
    author.say("post 8192");
    author.say("burst 33 96");
    author.say("tx 1 32 1518");
    author.say("mtx 4");
    author.say("mrx 4");
    bad_lines::all(author);
    author.say("# a comment may hold any bytes: \0\t\r\u{e9}");
    author.say(vec![b'#', 0xFF, 0xFE, 0x80]);
    author.say(vec![b'p', b'o', b's', b't', b' ', 0xFF]);
    for length in [LONGEST_LINE, LONGEST_LINE + 1] {
        author.say(vec![b'#'; length]);
    }
    author.say("post 00000000000000012288");
    author.say("post 000000000000000012288");
    author.say("post 18446744073709549568");
    for call in ["rxtail", "rxsum", "burst 33 96", "txtail", "txsum"] {
        author.say(call);
    }
    for call in ["mtxtail", "mtxsum", "mrxtail", "mrxsum", "mdone 8192", "mread 8192"] {
        author.say(call);
    }
}
