//! An author of scripts: writes lines, and runs each at once so that it knows the bench's state.

use crate::bench::{place, Bench};
use crate::record::{Direction, Record, MOST_EVER};

/// A small random source (splitmix64), so that a seed gives the same script everywhere.
pub struct Random(u64);

impl Random {
    pub fn new(seed: u64) -> Random {
        Random(seed)
    }

    pub fn next(&mut self) -> u64 {
        self.0 = self.0.wrapping_add(0x9E37_79B9_7F4A_7C15);
        let mut z = self.0;
        z = (z ^ (z >> 30)).wrapping_mul(0xBF58_476D_1CE4_E5B9);
        z = (z ^ (z >> 27)).wrapping_mul(0x94D0_49BB_1331_11EB);
        z ^ (z >> 31)
    }

    pub fn below(&mut self, bound: u64) -> u64 {
        self.next() % bound
    }

    /// From `lower` to `upper`, both included.
    pub fn between(&mut self, lower: u64, upper: u64) -> u64 {
        lower + self.below(upper - lower + 1)
    }

    pub fn one_in(&mut self, bound: u64) -> bool {
        self.below(bound) == 0
    }

    pub fn pick<T: Copy>(&mut self, choices: &[T]) -> T {
        choices[self.below(choices.len() as u64) as usize]
    }

    /// Any 64-bit number, small ones, powers of two and their neighbours more often.
    pub fn any(&mut self) -> u64 {
        match self.below(8) {
            0 => self.below(3),
            1 => u64::MAX - self.below(3),
            2 => 1 << self.below(64),
            3 => (1u64 << self.below(64)).wrapping_sub(1),
            4 => self.below(20_000),
            5 => self.next() >> self.below(64),
            6 => u64::MAX - (self.next() >> self.between(40, 60)),
            _ => self.next(),
        }
    }

    /// An address at which a buffer of this length is accepted, its ends more often.
    pub fn address(&mut self, length: u64) -> u64 {
        let last = (u64::MAX - length) + 1;
        let wanted = match self.below(6) {
            0 => 1,
            1 => last,
            2 => 1 << self.below(64),
            3 => self.between(1, 9),
            _ => self.next(),
        };
        wanted.max(1).min(last)
    }

    /// So many slots posted, after few were handed back, many, or nearly all that can be.
    pub fn counted(&mut self, posted: u64) -> Record {
        let returned = match self.below(8) {
            0 => 0,
            1 => self.any(),
            // a count soon goes past a power of two, mostly past 32 bits
            2 => {
                let power = 1u64 << if self.one_in(3) { self.below(64) } else { 32 };
                power.saturating_sub(self.below(posted.clamp(1, 40) + 8))
            }
            // and here past its end
            3 => MOST_EVER - posted.min(MOST_EVER / 2) - self.below(40),
            _ => self.below(1 << 20),
        };
        Record::counted(returned, posted)
    }
}

pub struct Author {
    pub random: Random,
    pub bench: Bench,
    text: Vec<u8>,
    lines: usize,
    most: usize,
    answers: String,
}

impl Author {
    /// An author of exactly `most` lines (what is said past them is left out).
    pub fn new(seed: u64, most: usize) -> Author {
        Author {
            random: Random::new(seed),
            bench: Bench::new(),
            text: Vec::new(),
            lines: 0,
            most,
            answers: String::new(),
        }
    }

    pub fn full(&self) -> bool {
        self.lines >= self.most
    }

    pub fn lines(&self) -> usize {
        self.lines
    }

    pub fn into_text(self) -> Vec<u8> {
        self.text
    }

    /// Writes a line and runs it.
    pub fn say(&mut self, line: impl AsRef<[u8]>) {
        if self.full() {
            return;
        }
        let line = line.as_ref();
        self.lines += 1;
        self.answers.clear();
        self.bench.line(self.lines, line, &mut self.answers);
        self.text.extend_from_slice(line);
        self.text.push(b'\n');
    }

    /// Writes a line with leading zeros before one of its numbers, now and then.
    pub fn say_padded(&mut self, line: &str) {
        if !self.random.one_in(24) {
            return self.say(line);
        }
        let mut words: Vec<String> = line.split(' ').map(str::to_string).collect();
        let width = self.random.between(2, 20) as usize;
        let chosen = self.random.below(words.len() as u64) as usize;
        if chosen > 0 {
            words[chosen] = format!("{:0>width$}", words[chosen]);
        }
        self.say(words.join(" "));
    }

    /// The answer to the last call.
    pub fn answer(&self) -> u8 {
        self.bench.answer
    }

    /// Hands in a receive record, with the lengths that its size asks for.
    pub fn rxset(&mut self, record: Record) {
        self.rxset_lent(record, 2 * record.size, record.size);
    }

    pub fn rxset_lent(&mut self, record: Record, ring: u64, list: u64) {
        let Record { queue, size, limit, .. } = record;
        self.say(format!("rxset {queue} {size} {} {limit} {ring} {list}", place(&record)));
    }

    pub fn txset(&mut self, record: Record) {
        self.txset_lent(record, [2 * record.size, record.size, record.size]);
    }

    pub fn txset_lent(&mut self, record: Record, lent: [u64; 3]) {
        let (Record { queue, size, limit, .. }, [ring, tokens, counts]) = (record, lent);
        let place = place(&record);
        self.say(format!("txset {queue} {size} {place} {limit} {ring} {tokens} {counts}"));
    }

    /// Whether a post, or a send of some pieces, is soon refused for its count alone.
    pub fn near_the_end(&self, direction: Direction) -> bool {
        self.bench.record(direction).count_room() < 64
    }

    /// Whether calls on this queue get past answer 1.
    pub fn sound(&self, direction: Direction) -> bool {
        let (rx, tx) = (&self.bench.rx, &self.bench.tx);
        let (ring, lists) = match direction {
            Direction::Receive => (rx.lent_ring, [rx.lent_list, rx.lent_list]),
            Direction::Transmit => (tx.lent_ring, [tx.lent_tokens, tx.lent_counts]),
        };
        let record = self.bench.record(direction);
        let size = record.size as usize;
        // the size is small once the record is judged
        record.judge(direction).is_ok() && ring == 2 * size && lists == [size, size]
    }
}
