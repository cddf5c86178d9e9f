//! Which pieces a segment touches, and answer 8.

pub const MOST_TOUCHED: u64 = 8;

/// How many pieces each segment touches, segment 0 first. Bytes of the packet count from 0 at the
/// header's first; the header ends and the payload begins at byte `header`.
/// Only of a send that passed the checks before answer 8.
pub fn touched(lengths: &[u64], header: u64, mss: u64, tlen: u64) -> Vec<u64> {
    let starts = starts_of(lengths);
    let holders = starts.iter().filter(|start| **start < header).count();
    let mut counts = Vec::new();
    // `first` is the piece with the segment's first payload byte, `last` the one with its last;
    // neither ever moves back from one segment to the next
    let (mut first, mut last) = (0, 0);
    let mut begin = 0;
    while begin < tlen {
        let end = tlen.min(begin + mss);
        first = holder_of(header + begin, first, &starts, lengths);
        last = holder_of(header + end - 1, last, &starts, lengths);
        // pieces before `holders` hold header bytes and count already
        let more = (last + 1).saturating_sub(first.max(holders));
        counts.push((holders + more) as u64);
        begin += mss;
    }
    counts
}

fn starts_of(lengths: &[u64]) -> Vec<u64> {
    let mut starts = Vec::with_capacity(lengths.len());
    let mut start = 0;
    for length in lengths {
        starts.push(start);
        start += length;
    }
    starts
}

/// The piece that holds this byte, looked for from piece `from` upward.
fn holder_of(byte: u64, from: usize, starts: &[u64], lengths: &[u64]) -> usize {
    let mut piece = from;
    while starts[piece] + lengths[piece] <= byte {
        piece += 1;
    }
    piece
}

/// The same count said byte by byte: a piece is touched if one of its bytes is a header byte or a
/// payload byte of the segment. Slow; the selftest holds `touched` to it.
pub fn touched_by_bytes(lengths: &[u64], header: u64, mss: u64, tlen: u64) -> Vec<u64> {
    let mut owner = Vec::new();
    for (piece, length) in lengths.iter().enumerate() {
        owner.extend(std::iter::repeat(piece).take(*length as usize));
    }
    let mut counts = Vec::new();
    let mut k = 0;
    while k * mss < tlen {
        let mut hit = vec![false; lengths.len()];
        for (byte, piece) in owner.iter().enumerate() {
            let byte = byte as u64;
            let in_header = byte < header;
            let in_segment = byte >= header + k * mss && byte < header + tlen.min((k + 1) * mss);
            if in_header || in_segment {
                hit[*piece] = true;
            }
        }
        counts.push(hit.iter().filter(|one| **one).count() as u64);
        k += 1;
    }
    counts
}
