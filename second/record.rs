//! The queue record of document 01 with 02's counts, alike for both directions, and the refusals.

/// Document 01's number of a refused call, and the clause that was broken.
/// Only the number is ever compared; the clause feeds the coverage table.
#[derive(Clone, Copy, Debug, PartialEq, Eq)]
pub struct Refusal {
    pub answer: u8,
    pub cause: &'static str,
}

pub type Judged<T> = Result<T, Refusal>;

pub fn refuse<T>(answer: u8, cause: &'static str) -> Judged<T> {
    Err(Refusal { answer, cause })
}

/// Refuses with the number and cause if the clause is broken.
pub fn unless_broken(broken: bool, answer: u8, cause: &'static str) -> Judged<()> {
    if broken {
        refuse(answer, cause)
    } else {
        Ok(())
    }
}

#[derive(Clone, Copy, Debug, PartialEq, Eq)]
pub enum Direction {
    Receive,
    Transmit,
}

/// `limit` is the buffer size of a receive queue, the maximum frame of a transmit queue.
#[derive(Clone, Copy, Debug, Default, PartialEq, Eq)]
pub struct Record {
    pub queue: u64,
    pub size: u64,
    pub head: u64,
    pub posted: u64,
    /// Slots ever posted.
    pub ever_posted: u64,
    /// Slots ever handed back.
    pub ever_returned: u64,
    pub limit: u64,
}

/// One line of document 01's table of numbers; steps count from the lower end.
pub struct Line {
    pub lower: u64,
    pub upper: u64,
    pub step: u64,
    causes: [&'static str; 3],
}

pub const MOST_QUEUE: u64 = 3;

/// The end of both counts, 2^64 - 1.
pub const MOST_EVER: u64 = u64::MAX;

pub const SIZE: Line = Line {
    lower: 32,
    upper: 4096,
    step: 32,
    causes: ["size below 32", "size above 4,096", "size off its steps"],
};

pub const BUFFER: Line = Line {
    lower: 1024,
    upper: 16256,
    step: 128,
    causes: ["buffer size below 1,024", "buffer size above 16,256", "buffer size off its steps"],
};

pub const FRAME: Line = Line {
    lower: 1518,
    upper: 9728,
    step: 1,
    // every number is on a step of 1, so the third cause never comes
    causes: ["maximum frame below 1,518", "maximum frame above 9,728", "-"],
};

impl Line {
    fn judge(&self, value: u64) -> Judged<()> {
        unless_broken(value < self.lower, 1, self.causes[0])?;
        unless_broken(value > self.upper, 1, self.causes[1])?;
        unless_broken((value - self.lower) % self.step != 0, 1, self.causes[2])
    }
}

impl Direction {
    pub fn limit_line(self) -> &'static Line {
        match self {
            Direction::Receive => &BUFFER,
            Direction::Transmit => &FRAME,
        }
    }
}

impl Record {
    /// The record alone: document 01's lines on the queue record.
    pub fn judge(&self, direction: Direction) -> Judged<()> {
        unless_broken(self.queue > MOST_QUEUE, 1, "queue number above 3")?;
        SIZE.judge(self.size)?;
        unless_broken(self.head >= self.size, 1, "head not below size")?;
        unless_broken(self.posted > self.size - 1, 1, "posted above size - 1")?;
        direction.limit_line().judge(self.limit)?;
        self.judge_counts()
    }

    /// Posted is the difference of the counts in plain numbers, so this is a sum, and a wide one: a
    /// difference would wrap where more came back than was ever posted.
    fn judge_counts(&self) -> Judged<()> {
        let returned_or_posted = u128::from(self.ever_returned) + u128::from(self.posted);
        let ever_posted = u128::from(self.ever_posted);
        let wraps = self.ever_posted.wrapping_sub(self.ever_returned) == self.posted;
        let more_returned = self.ever_returned > self.ever_posted;
        unless_broken(more_returned && wraps, 1, "counts whose difference wraps to posted")?;
        unless_broken(more_returned, 1, "more ever returned than ever posted")?;
        unless_broken(returned_or_posted < ever_posted, 1, "posted below the counts' difference")?;
        unless_broken(returned_or_posted > ever_posted, 1, "posted above the counts' difference")
    }

    /// Whether so many more slots may be posted: the ring has room for them, and the count.
    /// The causes stand for no room on the ring, none in the count, and neither.
    pub fn judge_room(&self, slots: u64, causes: [&'static str; 3]) -> Judged<()> {
        let (no_slot, no_count) = (slots > self.room(), slots > self.count_room());
        unless_broken(no_slot && no_count, 3, causes[2])?;
        unless_broken(no_slot, 3, causes[0])?;
        unless_broken(no_count, 3, causes[1])
    }

    /// A fresh queue judges only the numbers that it is asked with.
    pub fn fresh(direction: Direction, queue: u64, size: u64, limit: u64) -> Judged<Record> {
        let record = Record { queue, size, limit, ..Record::default() };
        record.judge(direction)?;
        Ok(record)
    }

    /// The slot at this distance from head, going upward round the ring. Only of a judged record.
    pub fn slot(&self, distance: u64) -> usize {
        ((self.head + distance) % self.size) as usize
    }

    pub fn tail(&self) -> u64 {
        (self.head + self.posted) % self.size
    }

    /// Slots that the ring has room for.
    pub fn room(&self) -> u64 {
        self.size - 1 - self.posted
    }

    /// Slots that the count of those ever posted has room for.
    pub fn count_room(&self) -> u64 {
        MOST_EVER - self.ever_posted
    }

    /// The record once `slots` more were posted.
    pub fn posted_more(&self, slots: u64) -> Record {
        let (posted, ever_posted) = (self.posted + slots, self.ever_posted + slots);
        Record { posted, ever_posted, ..*self }
    }

    /// The record once the oldest `count` posted slots came back. Of a judged record, what is ever
    /// returned stays at most what was ever posted, so it does not pass its end.
    pub fn moved_on(&self, count: u64) -> Record {
        Record {
            head: self.slot(count) as u64,
            posted: self.posted - count,
            ever_returned: self.ever_returned + count,
            ..*self
        }
    }

    /// A record's posted and counts alone: so many slots posted after so many were handed back.
    /// Fewer were handed back where the count of those ever posted would pass its end.
    pub fn counted(ever_returned: u64, posted: u64) -> Record {
        let ever_returned = ever_returned.min(MOST_EVER - posted);
        let ever_posted = ever_returned + posted;
        Record { posted, ever_posted, ever_returned, ..Record::default() }
    }

    /// The record with another number posted, and counts that agree with it.
    pub fn with_posted(&self, posted: u64) -> Record {
        let Record { queue, size, head, limit, .. } = *self;
        Record { queue, size, head, limit, ..Record::counted(self.ever_returned, posted) }
    }

    /// The record with counts that have room for so many slots more.
    pub fn with_count_room(&self, room: u64) -> Record {
        let ever_posted = MOST_EVER - room;
        Record { ever_posted, ever_returned: ever_posted - self.posted, ..*self }
    }

    pub fn tail_value(&self, direction: Direction) -> Judged<u64> {
        self.judge(direction)?;
        Ok(self.tail())
    }

    pub fn tail_register(&self, direction: Direction) -> Judged<u64> {
        self.judge(direction)?;
        let base = match direction {
            Direction::Receive => 0x2000,
            Direction::Transmit => 0,
        };
        Ok(base + 4 * self.queue)
    }
}

/// Refuses unless a lent slice has exactly the length that the size asks for.
pub fn judge_length(length: usize, asked: u64, causes: [&'static str; 2]) -> Judged<()> {
    unless_broken((length as u64) < asked, 1, causes[0])?;
    unless_broken((length as u64) > asked, 1, causes[1])
}

/// Whether a buffer at this address breaks answer 2. A buffer that ends exactly at 2^64 does not.
pub fn judge_buffer(address: u64, length: u64) -> Judged<()> {
    unless_broken(address == 0, 2, "address 0")?;
    let end = u128::from(address) + u128::from(length);
    unless_broken(end > 1u128 << 64, 2, "address + length passes 2^64")
}

/// Bits `high` down to `low` of a word.
pub fn bits(word: u64, high: u32, low: u32) -> u64 {
    ((u128::from(word) >> low) & ((1u128 << (high - low + 1)) - 1)) as u64
}
