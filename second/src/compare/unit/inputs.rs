//! Inputs of the unit comparison: plain regions and buffers.

use crate::compare::layout::inputs::{addresses, corner, LAST, USUAL};
use crate::compare::random::Random;
use crate::compare::ring::inputs::Place;
use crate::link::layout::{ring_header, round_up, ALIGNMENTS, LARGEST_REGION};
use crate::link::unit::{Plain, LEAST_DATA};

/// The aligned size below which a region is too small.
pub fn least_size(alignment: u32) -> i64 {
    ring_header(alignment.into()) + LEAST_DATA
}

/// A region from whole numbers; none if an address leaves 32 bits.
pub fn plain(begin: i64, length: i64, alignment: u32) -> Option<Plain> {
    let [begin, end] = addresses(begin, length)?;
    Some(Plain {
        begin,
        end,
        alignment,
    })
}

/// Small regions of every alignment: the least one, one whose begin and end are
/// rounded, and one with some more data.
pub fn small_places() -> impl Iterator<Item = Place<Plain>> {
    ALIGNMENTS.into_iter().flat_map(|alignment| {
        let a = i64::from(alignment);
        let least = round_up(least_size(alignment), a);
        [(0, least), (1, least + 2 * a - 2), (a - 1, least + 5 * a)].map(|(gap, length)| {
            let region = plain(USUAL + gap, length, alignment);
            let place = region.and_then(Place::new);
            place.expect("a region with space for rounding")
        })
    })
}

/// Any accepted region of up to `most` bytes; small ones are as frequent as
/// large ones.
pub fn any_place(random: &mut Random, most: i64) -> Place<Plain> {
    loop {
        let alignment = random.pick(&ALIGNMENTS);
        let least = least_size(alignment);
        let spare = (most - least) >> random.below(12);
        let length = least + random.between(0, spare);
        let begin = any_begin(random, length);
        // Rounding can leave too little.
        if let Some(place) = plain(begin, length, alignment).and_then(Place::new) {
            return place;
        }
    }
}

/// A region of that length in the first bytes, in the last bytes or anywhere,
/// and often aligned.
pub fn any_begin(random: &mut Random, length: i64) -> i64 {
    let last = LAST - length.max(0);
    let begin = match random.below(4) {
        0 => random.between(0, 300),
        1 => last - random.between(0, 300),
        _ => random.between(0, last),
    };
    if random.one_in(2) {
        begin & !0xFF
    } else {
        begin
    }
}

/// The length of a region near a limit, or of any up to the largest.
pub fn length_near_limit(random: &mut Random, alignment: u32) -> i64 {
    let a = i64::from(alignment.min(512));
    let least = ring_header(a) + LEAST_DATA;
    match random.below(8) {
        0..=2 => least + random.between(-9, 9),
        3 => least + random.between(-2 * a, 2 * a),
        4 => round_up(least, a.max(1)) + random.between(-1, a),
        5 => LARGEST_REGION + random.between(-2, 2),
        6 => random.between(0, 4096),
        _ => random.between(-9, LARGEST_REGION + 9),
    }
}

/// A region that may be refused: near a limit, and one number in ten odd.
pub fn hostile_plain(random: &mut Random) -> Plain {
    let alignment = random.pick(&ALIGNMENTS);
    let length = length_near_limit(random, alignment);
    let begin = any_begin(random, length).max(-length);
    let mut region = plain(begin, length, alignment).expect("begin leaves space for the length");
    for number in [&mut region.begin, &mut region.end, &mut region.alignment] {
        if random.one_in(10) {
            *number = corner(random);
        }
    }
    region
}

/// The length of a buffer for a content: just as long, a byte shorter, empty,
/// some bytes longer, any shorter, or longer than two bytes can say.
pub fn buffer_length(random: &mut Random, content: usize) -> usize {
    match random.below(16) {
        0..=4 => content,
        5..=7 => content.saturating_sub(1),
        8 => 0,
        9..=11 => content + random.between(1, 8) as usize,
        12 if random.one_in(16) => 65_536 + random.below(8) as usize,
        12..=14 => random.below(content as u64 + 1) as usize,
        _ => content + random.below(64) as usize,
    }
}
