//! Interrupt words (Sections 7.2.2.1 and 7.2.2.2).

use crate::record::{unless_broken, Judged};

pub const MOST_VECTOR: u64 = 64;
pub const MOST_INDEX: u64 = 3;
pub const NO_UPDATE: u64 = 3;
pub const MOST_INTERVAL: u64 = 8160;

pub const OFF: u64 = 0;
pub const ON: u64 = 1;
pub const LEAVE: u64 = 2;

/// `enable` is OFF, ON or LEAVE; the flags are 0 or 1; the interval is in microseconds.
#[derive(Clone, Copy, Debug, Default)]
pub struct Request {
    pub vector: u64,
    pub enable: u64,
    pub write_back: u64,
    pub clear: u64,
    pub trigger: u64,
    pub trigger_index: u64,
    pub index: u64,
    pub interval: u64,
}

fn judge(request: &Request) -> Judged<()> {
    let Request { enable, write_back, trigger, trigger_index, index, interval, .. } = *request;
    unless_broken(request.vector > MOST_VECTOR, 9, "vector above 64")?;
    unless_broken(trigger_index > MOST_INDEX, 9, "trigger index above 3")?;
    unless_broken(index > MOST_INDEX, 9, "index above 3")?;
    unless_broken(interval > MOST_INTERVAL, 9, "interval above 8,160")?;
    unless_broken(interval % 2 == 1, 9, "interval odd")?;
    unless_broken(interval != 0 && index == NO_UPDATE, 9, "interval not 0 with index 3")?;
    unless_broken(trigger_index != 0 && trigger == 0, 9, "trigger index without a trigger")?;
    unless_broken(write_back == 1 && enable == ON, 9, "write-back-on-ITR with on")?;
    unless_broken(write_back == 1 && enable == LEAVE, 9, "write-back-on-ITR with leave")
}

/// The register's offset and the word to write there.
pub fn word(request: &Request) -> Judged<(u64, u64)> {
    judge(request)?;
    let offset = match request.vector {
        0 => 0x5C00,
        vector => 0x3800 + 4 * (vector - 1),
    };
    let intena = u64::from(request.enable == ON);
    let intena_mask = u64::from(request.enable == LEAVE);
    let word = intena
        | request.clear << 1
        | request.trigger << 2
        | request.index << 3
        | (request.interval / 2) << 5
        | request.trigger << 24
        | request.trigger_index << 25
        | request.write_back << 30
        | intena_mask << 31;
    Ok((offset, word))
}
