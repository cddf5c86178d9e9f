//! The bench's mailbox (M-105): two rings, their companion lists and one buffer, and the lines
//! that are printed.

use crate::bench::{sum, Bench};
use crate::cover::Seen;
use crate::mailbox::{self, Checks, Element, Lent, Message, Post, Ring, Shutdown};
use crate::mailbox_cover::{self, Call, Scene, DONE, POST, READ, REGISTER, SEND, SHUT, TAIL};
use crate::mailbox_lines::{Line, BUFFER, LIST, RING};
use crate::mailbox_read::{self, Reading};
use crate::mailbox_read_cover;
use crate::record::{Direction, Judged};
use std::fmt::Write;

/// One ring, and how much of its memory is lent: bytes, numbers.
pub struct Half {
    pub record: Ring,
    pub ring: Vec<u8>,
    pub list: Vec<u32>,
    pub lent_ring: usize,
    pub lent_list: usize,
    /// The name of a sum after the last call and its answer, if nothing but that call came since.
    after: Option<(&'static str, u8)>,
}

pub struct Mailbox {
    pub tx: Half,
    pub rx: Half,
    /// A call is lent its first bytes, as many as its line says.
    pub buffer: Vec<u8>,
}

impl Half {
    fn new() -> Half {
        let (ring, list) = (vec![0; RING as usize], vec![0; LIST as usize]);
        Half { record: Ring::default(), ring, list, lent_ring: 0, lent_list: 0, after: None }
    }

    fn lent(&mut self) -> Lent<'_> {
        Lent { ring: &mut self.ring[..self.lent_ring], list: &mut self.list[..self.lent_list] }
    }

    /// The ring and the list as far as they are lent.
    pub fn seen(&self) -> (&[u8], &[u32]) {
        (&self.ring[..self.lent_ring], &self.list[..self.lent_list])
    }

    fn set(&mut self, record: Ring, ring: usize, list: usize) {
        self.record = record;
        self.lent_ring = ring;
        self.lent_list = list;
    }
}

impl Mailbox {
    /// Everything is 0 at the start, what is lent too.
    pub fn new() -> Mailbox {
        Mailbox { tx: Half::new(), rx: Half::new(), buffer: vec![0; BUFFER as usize] }
    }

    pub fn half(&self, direction: Direction) -> &Half {
        match direction {
            Direction::Transmit => &self.tx,
            Direction::Receive => &self.rx,
        }
    }

    fn half_mut(&mut self, direction: Direction) -> &mut Half {
        match direction {
            Direction::Transmit => &mut self.tx,
            Direction::Receive => &mut self.rx,
        }
    }

    /// A ring that is changed by no call, so that its next sum says nothing of one.
    fn changed(&mut self, direction: Direction) -> &mut Half {
        let half = self.half_mut(direction);
        half.after = None;
        half
    }
}

impl Half {
    /// Notes what a call is about to meet that stores this element.
    fn met(
        &self,
        direction: Direction,
        call: &Call,
        checks: &Checks,
        element: &Element,
        seen: &mut Seen,
    ) {
        let (record, (ring, list)) = (self.record, self.seen());
        Scene { direction, record, ring, list, checks }.storing(call, element, seen);
    }
}

/// A line's word, by its ring.
fn word(direction: Direction, words: [&'static str; 2]) -> &'static str {
    match direction {
        Direction::Transmit => words[0],
        Direction::Receive => words[1],
    }
}

impl Bench {
    pub fn mailbox_line(&mut self, line: &Line, out: &mut String) {
        mailbox_cover::line(line, &mut self.seen);
        match *line {
            Line::Fresh { direction, size } => self.mail_fresh(direction, size, out),
            Line::Set { direction, record, ring, list } => {
                self.mail.changed(direction).set(record, ring, list);
            }
            Line::Poke { direction, index, byte } => {
                self.mail.changed(direction).ring[index] = byte;
            }
            Line::List { direction, index, value } => {
                self.mail.changed(direction).list[index] = value;
            }
            Line::Buffer { index, byte } => self.mail.buffer[index] = byte,
            Line::Send(message) => self.mail_send(&message, out),
            Line::ShutDown(shutdown) => self.mail_shut_down(&shutdown, out),
            Line::Post(post) => self.mail_post(&post, out),
            Line::Read { direction, lent } => self.mail_read(direction, lent, out),
            Line::Tail(direction) => self.mail_tail(direction, out),
            Line::Register(direction) => self.mail_register(direction, out),
            Line::Sum(direction) => self.mail_sum(direction, out),
        }
    }

    fn mail_fresh(&mut self, direction: Direction, size: u64, out: &mut String) {
        let call = word(direction, ["mtx", "mrx"]);
        let judged = Ring::fresh(size);
        let answer = self.note(call, &judged, "");
        let half = self.mail.changed(direction);
        mailbox_cover::fresh(direction, size, &half.record, answer, &mut self.seen);
        half.record = judged.unwrap_or_default();
        if judged.is_ok() {
            half.lent_ring = 32 * size as usize;
            half.lent_list = size as usize;
        }
        let place = place(direction, &half.record);
        let _ = writeln!(out, "{call} {answer} {} {place}", half.record.size);
    }

    fn mail_send(&mut self, message: &Message, out: &mut String) {
        let half = &mut self.mail.tx;
        let (ring, list) = half.seen();
        let checks = message.checks(&half.record, ring, list);
        half.met(Direction::Transmit, &SEND, &checks, &message.element(), &mut self.seen);
        let judged = mailbox::send(half.record, &mut half.lent(), message);
        let kind = mailbox_cover::sent_kind(&message.element());
        let answer = self.mail_stored(&SEND, Direction::Transmit, judged, kind, out);
        mailbox_cover::limits(&SEND, message, answer, &mut self.seen);
        if answer == 0 {
            mailbox_cover::sent(message, &mut self.seen);
        }
    }

    fn mail_shut_down(&mut self, shutdown: &Shutdown, out: &mut String) {
        let half = &mut self.mail.tx;
        let (ring, list) = half.seen();
        let checks = shutdown.checks(&half.record, ring, list);
        half.met(Direction::Transmit, &SHUT, &checks, &shutdown.element(), &mut self.seen);
        let judged = mailbox::shut_down(half.record, &mut half.lent(), shutdown);
        let kind = mailbox_cover::shut_kind(shutdown);
        if self.mail_stored(&SHUT, Direction::Transmit, judged, kind, out) == 0 {
            mailbox_cover::shut_down(shutdown, &mut self.seen);
        }
    }

    fn mail_post(&mut self, post: &Post, out: &mut String) {
        let half = &mut self.mail.rx;
        let (ring, list) = half.seen();
        let checks = post.checks(&half.record, ring, list);
        half.met(Direction::Receive, &POST, &checks, &post.element(), &mut self.seen);
        let judged = mailbox::post(half.record, &mut half.lent(), post);
        let kind = mailbox_cover::sent_kind(&post.element());
        let answer = self.mail_stored(&POST, Direction::Receive, judged, kind, out);
        let Post { length, address, lent, .. } = *post;
        let asked = Message { buf: true, length, address, lent, ..Message::default() };
        mailbox_cover::limits(&POST, &asked, answer, &mut self.seen);
        if answer == 0 {
            mailbox_cover::posted(post, &mut self.seen);
        }
    }

    /// What a call prints that stores an element if it is accepted, and its answer.
    fn mail_stored(
        &mut self,
        call: &'static Call,
        direction: Direction,
        judged: Judged<Ring>,
        kind: &'static str,
        out: &mut String,
    ) -> u8 {
        let answer = self.note(call.name, &judged, kind);
        let half = self.mail.half_mut(direction);
        half.record = judged.unwrap_or(half.record);
        half.after = Some((call.summed, answer));
        let _ = writeln!(out, "{} {answer} {}", call.name, place(direction, &half.record));
        answer
    }

    fn mail_read(&mut self, direction: Direction, lent: usize, out: &mut String) {
        let call = [&DONE, &READ][mailbox_cover::place(direction)];
        let half = self.mail.half(direction);
        let (record, (ring, list)) = (half.record, half.seen());
        let checks = &mailbox_read::checks(direction, &record, ring, list, lent);
        Scene { direction, record, ring, list, checks }.reading(lent, &mut self.seen);
        let buffer = &self.mail.buffer[..lent];
        let judged = mailbox_read::read(direction, record, ring, list, buffer);
        let kind =
            judged.as_ref().map_or("", |(_, read)| mailbox_read_cover::kind(direction, read));
        let after = judged.as_ref().map_or(record, |(record, _)| *record);
        let reading = judged.as_ref().map_or(Reading::default(), |(_, reading)| *reading);
        let said = reading_numbers(direction, &reading);
        let judged = judged.map(|_| ());
        let answer = self.note(call.name, &judged, kind);
        let half = self.mail.half_mut(direction);
        half.record = after;
        half.after = Some((call.summed, answer));
        let _ = writeln!(out, "{} {answer} {} {said}", call.name, place(direction, &after));
    }

    fn mail_tail(&mut self, direction: Direction, out: &mut String) {
        let call = word(direction, ["mtxtail", "mrxtail"]);
        let record = self.mail.half(direction).record;
        let judged = record.tail_value();
        let answer = self.note(call, &judged, "");
        mailbox_cover::looked(&TAIL, direction, &record, &mut self.seen);
        if let Ok(tail) = judged {
            self.seen.bits(call, 10, tail);
        }
        let _ = writeln!(out, "{call} {answer} {}", judged.unwrap_or(0));
    }

    fn mail_register(&mut self, direction: Direction, out: &mut String) {
        let call = word(direction, ["mtxreg", "mrxreg"]);
        let record = self.mail.half(direction).record;
        let judged = record.tail_register(direction);
        let answer = self.note(call, &judged, "");
        mailbox_cover::looked(&REGISTER, direction, &record, &mut self.seen);
        let _ = writeln!(out, "{call} {answer} {}", judged.unwrap_or(0));
    }

    fn mail_sum(&mut self, direction: Direction, out: &mut String) {
        let call = word(direction, ["mtxsum", "mrxsum"]);
        let half = self.mail.half(direction);
        let (ring, list) = half.seen();
        mailbox_cover::summed(half.after, ring, &mut self.seen);
        let list: Vec<u64> = list.iter().map(|number| u64::from(*number)).collect();
        let _ = writeln!(out, "{call} {} {}", byte_sum(ring), sum(&list));
        self.seen.answer(call, 0, "");
    }
}

/// Where a ring stands, as its lines print it; a send ring tells whether it is shut.
fn place(direction: Direction, record: &Ring) -> String {
    let Ring { head, posted, shut, .. } = *record;
    match direction {
        Direction::Transmit => format!("{head} {posted} {}", u64::from(shut)),
        Direction::Receive => format!("{head} {posted}"),
    }
}

/// What a reading prints behind where the ring stands. A message's opcode is one number always,
/// and no word of its line.
fn reading_numbers(direction: Direction, reading: &Reading) -> String {
    let Reading { opcode, error, value, cookie, buf, part } = *reading;
    let (error, buf, cookie) = (u64::from(error), u64::from(buf), u64::from_le_bytes(cookie));
    let rest = format!("{error} {value} {cookie} {buf} {} {}", part.len(), byte_sum(part));
    match direction {
        Direction::Transmit => format!("{opcode} {rest}"),
        Direction::Receive => rest,
    }
}

/// A sum of bytes takes each byte as one number.
fn byte_sum(bytes: &[u8]) -> u64 {
    let numbers: Vec<u64> = bytes.iter().map(|byte| u64::from(*byte)).collect();
    sum(&numbers)
}
