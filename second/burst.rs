//! The burst (M-100): takes, one after another, up to the caller's limit.

use crate::receive;
use crate::record::{judge_length, unless_broken, Judged, Record};

pub const MOST_PACKETS: u64 = 32;

/// First slot, slot count and total length of each packet.
pub const NUMBERS: u64 = 3;

/// The list that is lent for them.
pub const LENT: u64 = MOST_PACKETS * NUMBERS;

/// What a burst that was not refused gives back.
#[derive(Clone, Copy, Debug, PartialEq, Eq)]
pub struct Burst {
    pub record: Record,
    pub packets: u64,
    /// Slots whose word 1 the takes read, the last unsuccessful take's too.
    pub examined: u64,
    /// The take that stopped it, or that the limit did.
    pub stop: Judged<()>,
}

fn judge(record: &Record, ring: &[u64], list: &[u64], out: &[u64], limit: u64) -> Judged<()> {
    receive::judge_lent(record, ring.len(), list.len())?;
    judge_length(out.len(), LENT, ["out too short", "out too long"])?;
    unless_broken(limit == 0, 10, "limit 0")?;
    unless_broken(limit > MOST_PACKETS, 10, "limit above 32")
}

/// Refused with 1 or 10, it writes nothing. Stopped with 4 or 5, the packets taken before stand.
pub fn burst(
    record: Record,
    ring: &[u64],
    list: &[u64],
    out: &mut [u64],
    limit: u64,
) -> Judged<Burst> {
    judge(&record, ring, list, out, limit)?;
    let mut burst = Burst { record, packets: 0, examined: 0, stop: Ok(()) };
    // once the limit is reached no further take is made, so none is counted
    while burst.packets < limit {
        let taken = receive::take_counted(burst.record, ring, list, &mut burst.examined);
        let (after, packet) = match taken {
            Ok(taken) => taken,
            Err(stop) => return Ok(Burst { stop: Err(stop), ..burst }),
        };
        let place = (NUMBERS * burst.packets) as usize;
        out[place] = burst.record.head;
        out[place + 1] = packet.count;
        out[place + 2] = packet.total;
        burst.record = after;
        burst.packets += 1;
    }
    Ok(burst)
}

/// The number that is printed: the refusal's, or the one that stopped it.
pub fn answer(judged: &Judged<Burst>) -> Judged<()> {
    match judged {
        Ok(burst) => burst.stop,
        Err(refusal) => Err(*refusal),
    }
}
