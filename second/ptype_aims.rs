//! What a random script tries with packet types.

use crate::author::Author;

/// The numbers at both sides of each end of Table 2-4's rows, and of the field.
const ENDS: [u64; 16] = [0, 1, 2, 10, 11, 12, 13, 21, 29, 87, 95, 127, 128, 129, 254, 255];

/// A few look-ups: any number, one at an end, one before the IP rows, or one of these with their
/// neighbours.
pub fn look_up(author: &mut Author) {
    for _ in 0..author.random.between(1, 3) {
        let random = &mut author.random;
        let number = match random.below(5) {
            0 => random.below(256),
            1 => random.pick(&ENDS),
            2 => random.below(22),
            3 => random.between(21, 29),
            _ => random.between(87, 95),
        };
        author.say_padded(&format!("ptype {number}"));
    }
}

/// A number above 255. Mostly its low eight bits are a number that would be known.
pub fn too_large(author: &mut Author) {
    let random = &mut author.random;
    let low = random.pick(&[0, 1, 11, 22, 24, 26, 28, 88, 90, 92, 94, 255]);
    let number = match random.below(4) {
        0 => random.pick(&[256, 257, 1 << 32, 1 << 63, u64::MAX]),
        1 => random.any().max(256),
        2 => low + 256 * random.between(1, 255),
        _ => low + (256 << random.below(56)),
    };
    author.say_padded(&format!("ptype {number}"));
}
