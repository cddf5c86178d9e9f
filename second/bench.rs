//! The bench: one receive queue, one transmit queue, the burst's list, the mailbox, and the lines
//! that are printed.

use crate::burst;
use crate::burst_cover::{self, Scene};
use crate::count_cover::{self, Waiting};
use crate::cover::{self, Seen};
use crate::interrupt;
use crate::mailbox_bench::Mailbox;
use crate::packet_type;
use crate::ptype_cover;
use crate::receive::{self, Packet};
use crate::record::{Direction, Judged, Record};
use crate::script::{self, Command};
use crate::segments;
use crate::sixth_cover::{self, Queue};
use crate::transmit::{self, Lent, Send};
use crate::verdict_cover;
use std::fmt::Write;

pub struct Receive {
    pub record: Record,
    pub ring: Vec<u64>,
    pub list: Vec<u64>,
    pub lent_ring: usize,
    pub lent_list: usize,
}

pub struct Transmit {
    pub record: Record,
    pub ring: Vec<u64>,
    pub tokens: Vec<u64>,
    pub counts: Vec<u16>,
    pub lent_ring: usize,
    pub lent_tokens: usize,
    pub lent_counts: usize,
}

pub struct Bench {
    pub rx: Receive,
    pub tx: Transmit,
    /// The burst's list.
    pub out: Vec<u64>,
    pub mail: Mailbox,
    pub seen: Seen,
    /// The answer of the last call that had one.
    pub answer: u8,
    /// The last send on this transmit queue, if it was refused with 3.
    waiting: Option<Waiting>,
}

impl Transmit {
    fn lent(&mut self) -> Lent<'_> {
        Lent {
            ring: &mut self.ring[..self.lent_ring],
            tokens: &mut self.tokens[..self.lent_tokens],
            counts: &mut self.counts[..self.lent_counts],
        }
    }
}

impl Bench {
    /// Everything is 0 at the start, what is lent too.
    pub fn new() -> Bench {
        let (ring, list) = (script::RING as usize, script::LIST as usize);
        Bench {
            rx: Receive {
                record: Record::default(),
                ring: vec![0; ring],
                list: vec![0; list],
                lent_ring: 0,
                lent_list: 0,
            },
            tx: Transmit {
                record: Record::default(),
                ring: vec![0; ring],
                tokens: vec![0; list],
                counts: vec![0; list],
                lent_ring: 0,
                lent_tokens: 0,
                lent_counts: 0,
            },
            out: vec![0; script::OUT as usize],
            mail: Mailbox::new(),
            seen: Seen::new(),
            answer: 0,
            waiting: None,
        }
    }

    /// Runs line `number` and adds what it prints, with a line end, to `out`.
    pub fn line(&mut self, number: usize, line: &[u8], out: &mut String) {
        match script::read(line) {
            Ok(None) => {}
            Ok(Some(command)) => self.command(&command, out),
            Err(cause) => {
                self.seen.answer("bad", 0, cause);
                let _ = writeln!(out, "bad {number}");
            }
        }
    }

    fn command(&mut self, command: &Command, out: &mut String) {
        match command {
            Command::Rx { queue, size, buffer } => self.rx(*queue, *size, *buffer, out),
            Command::RxSet { record, ring, list } => {
                self.rx.record = *record;
                self.rx.lent_ring = *ring;
                self.rx.lent_list = *list;
            }
            Command::RxPoke { index, value } => self.rx.ring[*index] = *value,
            Command::RxList { index, value } => self.rx.list[*index] = *value,
            Command::Post { address } => self.post(*address, out),
            Command::Take => self.take(out),
            Command::Out { index, value } => {
                self.out[*index] = *value;
                burst_cover::out_line(*index, *value, &mut self.seen);
            }
            Command::Burst { limit, length } => self.burst(*limit, *length, out),
            Command::RxTail => self.tail("rxtail", Direction::Receive, out),
            Command::RxReg => self.register("rxreg", Direction::Receive, out),
            Command::RxSum => self.rx_sum(out),
            Command::Int(request) => self.interrupt(request, out),
            Command::PacketType { number } => self.packet_type(*number, out),
            Command::Mailbox(line) => self.mailbox_line(line, out),
            _ => self.transmit_command(command, out),
        }
    }

    fn transmit_command(&mut self, command: &Command, out: &mut String) {
        match command {
            Command::Tx { queue, size, frame } => self.tx(*queue, *size, *frame, out),
            Command::TxSet { record, ring, tokens, counts } => {
                self.waiting = None;
                self.tx.record = *record;
                self.tx.lent_ring = *ring;
                self.tx.lent_tokens = *tokens;
                self.tx.lent_counts = *counts;
            }
            Command::TxPoke { index, value } => self.tx.ring[*index] = *value,
            Command::TxToken { index, value } => self.tx.tokens[*index] = *value,
            Command::TxCount { index, value } => self.tx.counts[*index] = *value,
            Command::Send(request) => self.send(request, out),
            Command::Reclaim => self.reclaim(out),
            Command::TxTail => self.tail("txtail", Direction::Transmit, out),
            Command::TxReg => self.register("txreg", Direction::Transmit, out),
            _ => self.tx_sum(out),
        }
    }

    /// Notes the answer of a call; `done` names the kind of an accepted one.
    pub fn note<T>(&mut self, call: &'static str, judged: &Judged<T>, done: &'static str) -> u8 {
        let (answer, cause) = match judged {
            Ok(_) => (0, done),
            Err(refusal) => (refusal.answer, refusal.cause),
        };
        self.answer = answer;
        self.seen.answer(call, answer, cause);
        answer
    }

    fn rx(&mut self, queue: u64, size: u64, buffer: u64, out: &mut String) {
        let judged = Record::fresh(Direction::Receive, queue, size, buffer);
        let answer = self.note("rx", &judged, "");
        count_cover::fresh(count_cover::RX, answer, &self.rx.record, &mut self.seen);
        if let Ok(record) = judged {
            self.rx.lent_ring = 2 * record.size as usize;
            self.rx.lent_list = record.size as usize;
        }
        self.rx.record = judged.unwrap_or_default();
        fresh_line("rx", answer, &self.rx.record, out);
    }

    fn tx(&mut self, queue: u64, size: u64, frame: u64, out: &mut String) {
        let judged = Record::fresh(Direction::Transmit, queue, size, frame);
        let answer = self.note("tx", &judged, "");
        count_cover::fresh(count_cover::TX, answer, &self.tx.record, &mut self.seen);
        self.waiting = None;
        if let Ok(record) = judged {
            self.tx.lent_ring = 2 * record.size as usize;
            self.tx.lent_tokens = record.size as usize;
            self.tx.lent_counts = record.size as usize;
        }
        self.tx.record = judged.unwrap_or_default();
        fresh_line("tx", answer, &self.tx.record, out);
    }

    fn post(&mut self, address: u64, out: &mut String) {
        let rx = &mut self.rx;
        let (ring, list) = (&mut rx.ring[..rx.lent_ring], &mut rx.list[..rx.lent_list]);
        let judged = receive::post(rx.record, ring, list, address);
        let answer = self.note("post", &judged, "");
        let before = self.rx.record;
        if let Ok(record) = judged {
            self.rx.record = record;
            self.seen.bits("post address", 64, address);
        }
        count_cover::POST.met(answer, &before, &self.rx.record, 1, &mut self.seen);
        let _ = writeln!(out, "post {answer} {}", place(&self.rx.record));
    }

    fn take(&mut self, out: &mut String) {
        let rx = &self.rx;
        let (ring, list) = (&rx.ring[..rx.lent_ring], &rx.list[..rx.lent_list]);
        let judged = receive::take(rx.record, ring, list);
        let queue = Queue { record: rx.record, ring, list };
        sixth_cover::TAKE.met(queue, &mut self.seen);
        verdict_cover::met(queue, &judged, &mut self.seen);
        let done = match &judged {
            Ok((_, packet)) => cover::packet_kind(packet),
            Err(_) => "",
        };
        let answer = self.note("take", &judged, done);
        let before = self.rx.record;
        if let Ok((record, packet)) = &judged {
            let last = before.slot(packet.count - 1);
            let words = [self.rx.ring[2 * last], self.rx.ring[2 * last + 1]];
            self.seen.packet(packet, words);
            self.rx.record = *record;
        }
        count_cover::TAKE.met(answer, &before, &self.rx.record, 0, &mut self.seen);
        let packet = judged.map(|(_, packet)| packet).unwrap_or_default();
        take_line(answer, &self.rx.record, &packet, out);
    }

    fn burst(&mut self, limit: u64, length: usize, out: &mut String) {
        let rx = &self.rx;
        let (ring, list) = (&rx.ring[..rx.lent_ring], &rx.list[..rx.lent_list]);
        let came = self.out.clone();
        let judged = burst::burst(rx.record, ring, list, &mut self.out[..length], limit);
        let record = rx.record;
        Scene { record, ring, list, limit, length, came: &came, judged: &judged }
            .met(&self.out, &mut self.seen);
        let answer = self.note("burst", &burst::answer(&judged), burst_cover::limit_kind(limit));
        let (mut packets, mut examined) = (0, 0);
        if let Ok(burst) = judged {
            self.rx.record = burst.record;
            (packets, examined) = (burst.packets, burst.examined);
        }
        count_cover::BURST.met(answer, &record, &self.rx.record, 0, &mut self.seen);
        let (place, sum) = (place(&self.rx.record), sum(&self.out));
        let _ = writeln!(out, "burst {answer} {place} {packets} {examined} {sum}");
    }

    pub fn record(&self, direction: Direction) -> Record {
        match direction {
            Direction::Receive => self.rx.record,
            Direction::Transmit => self.tx.record,
        }
    }

    fn tail(&mut self, call: &'static str, direction: Direction, out: &mut String) {
        let judged = self.record(direction).tail_value(direction);
        let answer = self.note(call, &judged, "");
        if let Ok(tail) = judged {
            // size is at most 4,096, so bit 12 of the 13-bit field never comes
            self.seen.bits(call, 12, tail);
        }
        let _ = writeln!(out, "{call} {answer} {}", judged.unwrap_or(0));
    }

    fn register(&mut self, call: &'static str, direction: Direction, out: &mut String) {
        let judged = self.record(direction).tail_register(direction);
        let answer = self.note(call, &judged, "");
        let _ = writeln!(out, "{call} {answer} {}", judged.unwrap_or(0));
    }

    fn rx_sum(&mut self, out: &mut String) {
        let ring = sum(&self.rx.ring[..self.rx.lent_ring]);
        let list = sum(&self.rx.list[..self.rx.lent_list]);
        self.seen.answer("rxsum", 0, "");
        let _ = writeln!(out, "rxsum {ring} {list}");
    }

    fn tx_sum(&mut self, out: &mut String) {
        let tx = &self.tx;
        let counts: Vec<u64> = tx.counts[..tx.lent_counts].iter().map(|n| u64::from(*n)).collect();
        let ring = sum(&tx.ring[..tx.lent_ring]);
        let tokens = sum(&tx.tokens[..tx.lent_tokens]);
        self.seen.answer("txsum", 0, "");
        let _ = writeln!(out, "txsum {ring} {tokens} {}", sum(&counts));
    }

    fn send(&mut self, request: &Send, out: &mut String) {
        let before = self.tx.record;
        let judged = transmit::send(before, &mut self.tx.lent(), request);
        let done = if judged.is_ok() { send_kind(request) } else { "" };
        let answer = self.note("send", &judged, done);
        if let Ok((record, _)) = judged {
            self.tx.record = record;
            self.seen.sent(request);
        }
        count_cover::SEND.met(answer, &before, &self.tx.record, request.slots(), &mut self.seen);
        count_cover::sent(request, answer, &before, &mut self.waiting, &mut self.seen);
        let slots = judged.map(|(_, slots)| slots).unwrap_or(0);
        let _ = writeln!(out, "send {answer} {} {slots}", place(&self.tx.record));
    }

    fn reclaim(&mut self, out: &mut String) {
        let before = self.tx.record;
        let judged = transmit::reclaim(before, &self.tx.lent());
        let answer = self.note("reclaim", &judged, "");
        if let Ok((record, token, count)) = judged {
            self.tx.record = record;
            self.seen.bits("reclaim TOKEN", 64, token);
            self.seen.bits("reclaim COUNT", 12, count);
        }
        count_cover::RECLAIM.met(answer, &before, &self.tx.record, 0, &mut self.seen);
        let (token, count) = judged.map(|(_, token, count)| (token, count)).unwrap_or((0, 0));
        let _ = writeln!(out, "reclaim {answer} {} {token} {count}", place(&self.tx.record));
    }

    fn interrupt(&mut self, request: &interrupt::Request, out: &mut String) {
        let judged = interrupt::word(request);
        let done = ["off", "on", "leave"][request.enable as usize];
        let answer = self.note("int", &judged, done);
        if let Ok((offset, word)) = judged {
            self.seen.interrupt(offset, word);
        }
        let (offset, word) = judged.unwrap_or((0, 0));
        let _ = writeln!(out, "int {answer} {offset} {word}");
    }

    /// No call: it has no answer, and refuses nothing.
    fn packet_type(&mut self, number: u8, out: &mut String) {
        let said = packet_type::look_up(number);
        ptype_cover::looked_up(number, &said, &mut self.seen);
        let [family, version, fragment, l4] = said.numbers();
        let _ = writeln!(out, "ptype {family} {version} {fragment} {l4}");
    }
}

/// Where a record stands, as every line prints it: head, posted and the two counts.
pub fn place(record: &Record) -> String {
    let Record { head, posted, ever_posted, ever_returned, .. } = *record;
    format!("{head} {posted} {ever_posted} {ever_returned}")
}

fn fresh_line(call: &str, answer: u8, record: &Record, out: &mut String) {
    let Record { queue, size, limit, .. } = *record;
    let _ = writeln!(out, "{call} {answer} {queue} {size} {} {limit}", place(record));
}

fn take_line(answer: u8, record: &Record, packet: &Packet, out: &mut String) {
    let Packet { count, total, .. } = *packet;
    let _ = write!(out, "take {answer} {} {count} {total}", place(record));
    for (address, length) in packet.addresses.iter().zip(&packet.lengths) {
        let _ = write!(out, " {address} {length}");
    }
    for field in &packet.fields {
        let _ = write!(out, " {field}");
    }
    out.push('\n');
}

/// A sum of a list: h becomes rotl(h, 7) xor x for each number x.
pub fn sum(numbers: &[u64]) -> u64 {
    numbers.iter().fold(0u64, |h, x| h.rotate_left(7) ^ x)
}

fn send_kind(request: &Send) -> &'static str {
    if request.segmented {
        let most = request.touched().into_iter().max().unwrap_or(0);
        if request.lengths.len() == transmit::MOST_PIECES_SEGMENTED {
            return "segmented, 4,094 pieces";
        }
        if most == segments::MOST_TOUCHED {
            return "segmented, a segment touches 8";
        }
        return if request.ip == transmit::IPV6 { "segmented IPv6" } else { "segmented IPv4" };
    }
    match (request.ip, request.l4) {
        (transmit::IP_NONE, _) => "plain, IP none",
        (transmit::IPV6, transmit::L4_NONE) => "plain IPv6",
        (transmit::IPV6, transmit::TCP) => "plain IPv6 TCP",
        (transmit::IPV6, transmit::SCTP) => "plain IPv6 SCTP",
        (transmit::IPV6, _) => "plain IPv6 UDP",
        (transmit::IPV4, transmit::L4_NONE) => "plain IPv4",
        (transmit::IPV4, transmit::TCP) => "plain IPv4 TCP",
        (transmit::IPV4, transmit::SCTP) => "plain IPv4 SCTP",
        (transmit::IPV4, _) => "plain IPv4 UDP",
        (_, transmit::L4_NONE) => "plain IPv4 checksum",
        (_, transmit::TCP) => "plain IPv4 checksum TCP",
        (_, transmit::SCTP) => "plain IPv4 checksum SCTP",
        (_, _) => "plain IPv4 checksum UDP",
    }
}
