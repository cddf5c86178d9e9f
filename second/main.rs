//! The second program: document 01's calls with 02's changes up to M-105, written a second time
//! from the documents alone, to be held against the proved library line by line.

mod aims;
mod author;
mod bad_lines;
mod bench;
mod burst;
mod burst_aims;
mod burst_cover;
mod burst_selftest;
mod compare;
mod count_aims;
mod count_cover;
mod count_selftest;
mod cover;
mod fixed;
mod fixed_burst;
mod fixed_counts;
mod fixed_mailbox;
mod fixed_mailbox_read;
mod fixed_ptype;
mod fixed_receive;
mod fixed_sixth;
mod fixed_transmit;
mod fixed_verdict;
mod interrupt;
mod layouts;
mod mailbox;
mod mailbox_aims;
mod mailbox_author;
mod mailbox_bench;
mod mailbox_cover;
mod mailbox_lines;
mod mailbox_read;
mod mailbox_read_aims;
mod mailbox_read_cover;
mod mailbox_read_selftest;
mod mailbox_selftest;
mod packet_type;
mod ptype_aims;
mod ptype_cover;
mod ptype_selftest;
mod receive;
mod receive_aims;
mod record;
mod script;
mod segments;
mod selftest;
mod sixth_aims;
mod sixth_cover;
mod sixth_selftest;
mod transmit;
mod transmit_aims;
mod verdict;
mod verdict_aims;
mod verdict_cover;
mod verdict_selftest;

use bench::Bench;
use std::fs;
use std::io::{self, Read, Write};
use std::process::exit;

const USAGE: &str = "usage:
  second run [SCRIPT]               answers to a script (standard input without SCRIPT)
  second generate SEED LINES        a random script
  second script                     the fixed script
  second cover [--all] SCRIPT...    table of calls and answers; fails on a gap
  second compare A B SCRIPT [HOW]   two outputs of a script; fails at the first difference
  second selftest                   the program's own checks";

fn main() {
    let words: Vec<String> = std::env::args().skip(1).collect();
    let words: Vec<&str> = words.iter().map(String::as_str).collect();
    match words.as_slice() {
        ["run"] => run(&standard_input()),
        ["run", script] => run(&file(script)),
        ["generate", seed, lines] => print(&aims::generate(number(seed), number(lines) as usize)),
        ["script"] => print(&fixed::script()),
        ["cover", "--all", scripts @ ..] => cover(scripts, true),
        ["cover", scripts @ ..] => cover(scripts, false),
        ["compare", first, second, script, how @ ..] => differ(first, second, script, how),
        ["selftest"] => selftest::run(),
        _ => fail(USAGE),
    }
}

fn fail(text: &str) -> ! {
    eprintln!("{text}");
    exit(2)
}

fn number(word: &str) -> u64 {
    word.parse().unwrap_or_else(|_| fail(&format!("not a number: {word}")))
}

fn file(path: &str) -> Vec<u8> {
    fs::read(path).unwrap_or_else(|error| fail(&format!("{path}: {error}")))
}

fn standard_input() -> Vec<u8> {
    let mut text = Vec::new();
    if let Err(error) = io::stdin().lock().read_to_end(&mut text) {
        fail(&format!("standard input: {error}"));
    }
    text
}

fn print(text: &[u8]) {
    if io::stdout().lock().write_all(text).is_err() {
        exit(2);
    }
}

/// Runs a whole script: what it prints, and the bench as it stands at the end.
pub fn answers(script: &[u8]) -> (String, Bench) {
    let (mut bench, mut out) = (Bench::new(), String::new());
    for (index, line) in script::lines(script).enumerate() {
        bench.line(index + 1, line, &mut out);
    }
    (out, bench)
}

fn run(script: &[u8]) {
    print(answers(script).0.as_bytes());
}

fn cover(scripts: &[&str], every_clause: bool) {
    let mut seen = cover::Seen::new();
    let mut lines = 0;
    for path in scripts {
        let text = file(path);
        lines += script::lines(&text).count();
        seen.add(&answers(&text).1.seen);
    }
    let (table, gaps) = seen.table(every_clause);
    print(format!("{table}lines {lines}\n").as_bytes());
    if gaps > 0 {
        exit(1);
    }
}

fn differ(first: &str, second: &str, script: &str, how: &[&str]) {
    match compare::first_difference(&file(script), &file(first), &file(second)) {
        None => println!("equal: {first} and {second}"),
        Some(report) => {
            println!("{report}");
            println!("first is {first}, second is {second}, script is {script}");
            println!("rerun: {}", rerun(script, how));
            exit(1);
        }
    }
}

fn rerun(script: &str, how: &[&str]) -> String {
    if how.is_empty() {
        return format!("give {script} to both programs again (second run {script})");
    }
    how.join(" ")
}
