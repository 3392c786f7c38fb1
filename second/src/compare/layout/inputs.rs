//! Inputs of the layout comparison: families of corners, each a full product,
//! and random mixtures.

use crate::compare::random::Random;
use crate::link::layout::{ring_minimum, Request, ALIGNMENTS, LARGEST_REGION, MOST_BLOCKS};

/// Takes each input of a family.
pub type Visit<'a> = &'a mut dyn FnMut(Request);

pub type Family = fn(Visit);

pub const FAMILIES: [(&str, Family); 6] = [
    ("alignments 0 to 512, lengths by steps", every_alignment),
    ("good alignments, lengths by single bytes", every_length),
    ("around the largest region", largest_regions),
    ("begins and ends, every pair", address_pairs),
    ("tiny regions at both ends of memory", tiny_regions),
    ("extreme numbers, several causes at once", extremes),
];

pub type Mixture = fn(&mut Random) -> Request;

pub const MIXTURES: [(&str, Mixture); 4] = [
    ("any numbers", any_numbers),
    ("plausible regions", plausible),
    ("regions near a limit", near_limit),
    ("corners mixed in", corners_mixed_in),
];

/// Block counts on both sides of each limit.
const COUNTS: [u32; 5] = [0, 1, 255, 256, 257];

/// The same, with usual ones between.
const MORE_COUNTS: [u32; 8] = [0, 1, 2, 16, 32, 255, 256, 257];

/// The last number that can be handed over as an address.
pub const LAST: i64 = u32::MAX as i64;

/// A usual address, a multiple of every good alignment.
pub const USUAL: i64 = 0x2007_0000;

/// A request without its region.
#[derive(Clone, Copy)]
pub struct Numbers {
    pub local_blocks: u32,
    pub remote_blocks: u32,
    pub alignment: u32,
}

impl Numbers {
    /// Every alignment with every pair of counts.
    pub fn product(alignments: &[u32], counts: &[u32]) -> Vec<Self> {
        let mut product = Vec::new();
        for &alignment in alignments {
            for (local_blocks, remote_blocks) in pairs(counts) {
                product.push(Numbers {
                    local_blocks,
                    remote_blocks,
                    alignment,
                });
            }
        }
        product
    }

    fn region(self, begin: u32, end: u32) -> Request {
        Request {
            begin,
            end,
            local_blocks: self.local_blocks,
            remote_blocks: self.remote_blocks,
            alignment: self.alignment,
        }
    }

    /// The same from whole numbers; none if an address leaves 32 bits.
    pub fn region_of(self, begin: i64, length: i64) -> Option<Request> {
        let [begin, end] = addresses(begin, length)?;
        Some(self.region(begin, end))
    }

    /// Regions of one raw length.
    fn places(self, length: i64) -> impl Iterator<Item = Request> {
        let regions = regions_of(self.alignment, length);
        regions.map(move |[begin, end]| self.region(begin, end))
    }

    /// The sizes at which the ring fits, one least block fits beside it, and
    /// all blocks get their first and their second unit of size.
    pub fn size_limits(self) -> [i64; 4] {
        let a = i64::from(self.alignment);
        let blocks = i64::from(self.local_blocks);
        let ring = ring_minimum(blocks, i64::from(self.remote_blocks), a);
        [ring, ring + a, ring + blocks * a, ring + 2 * blocks * a]
    }
}

/// Begin and end of a region; none if one of them leaves 32 bits.
pub fn addresses(begin: i64, length: i64) -> Option<[u32; 2]> {
    let end = u32::try_from(begin + length).ok()?;
    Some([u32::try_from(begin).ok()?, end])
}

/// Regions of one raw length (begin above end, if it is negative): in the first
/// bytes, at a usual address and in the last bytes of memory, aligned and a
/// byte off.
pub fn regions_of(alignment: u32, length: i64) -> impl Iterator<Item = [u32; 2]> {
    let a = i64::from(alignment);
    let top = LAST + 1 - a;
    let begins = [0, 1, 2, a - 1, a, a + 1, USUAL - 1, USUAL, USUAL + 1];
    let ends = [top - 1, top, top + 1, LAST - 1, LAST];
    begins
        .into_iter()
        .chain(ends.map(|end| end - length))
        .filter_map(move |begin| addresses(begin, length))
}

fn pairs<T: Copy>(choices: &[T]) -> impl Iterator<Item = (T, T)> + '_ {
    choices
        .iter()
        .flat_map(move |&first| choices.iter().map(move |&second| (first, second)))
}

fn every_alignment(visit: Visit) {
    let alignments: Vec<u32> = (0..=512).collect();
    for numbers in Numbers::product(&alignments, &COUNTS) {
        let a = i64::from(numbers.alignment);
        for limit in numbers.size_limits() {
            for step in [-2 * a, -a, -a / 2, 0, a / 2, a, 2 * a] {
                for byte in -2..=2 {
                    numbers.places(limit + step + byte).for_each(&mut *visit);
                }
            }
        }
    }
}

fn every_length(visit: Visit) {
    for numbers in Numbers::product(&ALIGNMENTS, &MORE_COUNTS) {
        let a = i64::from(numbers.alignment);
        for limit in numbers.size_limits() {
            for length in limit - 2 * a..=limit + 2 * a {
                numbers.places(length).for_each(&mut *visit);
            }
        }
    }
}

fn largest_regions(visit: Visit) {
    for numbers in Numbers::product(&ALIGNMENTS, &MORE_COUNTS) {
        let a = i64::from(numbers.alignment);
        for length in LARGEST_REGION - 2 * a..=LARGEST_REGION + 2 * a {
            numbers.places(length).for_each(&mut *visit);
        }
    }
}

/// Every pair out of a list of addresses: regions of all kinds, empty ones and
/// begins above their end among them.
fn address_pairs(visit: Visit) {
    // The last length has space for the most blocks at the largest alignment,
    // the others for some of them.
    const LENGTHS: [i64; 4] = [0, 0x800, 0x5000, 0x12000];
    for numbers in Numbers::product(&ALIGNMENTS, &COUNTS) {
        let a = i64::from(numbers.alignment);
        let mut marks = vec![LARGEST_REGION, 1 << 31, LAST - LARGEST_REGION];
        for length in [a, 2 * a].into_iter().chain(LENGTHS) {
            marks.extend([length, USUAL - length, USUAL + length, LAST + 1 - length]);
        }
        let addresses: Vec<u32> = marks
            .into_iter()
            .flat_map(|mark| [mark - 1, mark, mark + 1])
            .filter_map(|address| u32::try_from(address).ok())
            .collect();
        for (begin, end) in pairs(&addresses) {
            visit(numbers.region(begin, end));
        }
    }
}

/// Every begin and end in the first bytes and in the last bytes of memory.
fn tiny_regions(visit: Visit) {
    let offsets: Vec<u32> = (0..=160).collect();
    for numbers in Numbers::product(&ALIGNMENTS, &[1, 2, 3]) {
        for (begin, end) in pairs(&offsets) {
            visit(numbers.region(begin, end));
            visit(numbers.region(u32::MAX - begin, u32::MAX - end));
        }
    }
}

/// Numbers that a narrow or wrapping computation would take for good ones, in
/// regions of every kind: the order of the checks shows here.
fn extremes(visit: Visit) {
    #[rustfmt::skip]
    const ALIGNMENT_EXTREMES: [u32; 26] = [
        0, 1, 2, 3, 4, 5, 6, 12, 32, 33, 96, 255, 256, 257, 260, 512, 1024,
        0x1_0000, 0x1_0004, 0x1000_0020, 0x7FFF_FFFF, 0x8000_0000, 0x8000_0004,
        0xFFFF_FF00, 0xFFFF_FFFC, 0xFFFF_FFFF,
    ];
    #[rustfmt::skip]
    const COUNT_EXTREMES: [u32; 21] = [
        0, 1, 2, 16, 255, 256, 257, 258, 512, 0xFFFF, 0x1_0000, 0x1_0001,
        0x1FFF_FFFE, 0x1FFF_FFFF, 0x2000_0000, 0x2000_0001,
        0x7FFF_FFFF, 0x8000_0000, 0x8000_0001, 0xFFFF_FFFE, 0xFFFF_FFFF,
    ];
    const REGIONS: [(u32, u32); 20] = [
        // Space for all.
        (0x2007_0000, 0x2009_0000),
        (0x2007_0001, 0x2008_FFFF),
        (0, 0x10_0000),
        (0xFFEF_FFFF, 0xFFFF_FFFF),
        // Empty, or the wrong way round.
        (0, 0),
        (0x2007_0000, 0x2007_0000),
        (0xFFFF_FFFF, 0xFFFF_FFFF),
        (1, 0),
        (0x2007_0800, 0x2007_0000),
        (0xFFFF_FFFF, 0),
        (0x8000_0000, 0x7FFF_FFFF),
        // Too large.
        (0, 0x10_0001),
        (0xFFEF_FFFE, 0xFFFF_FFFF),
        (0, 0x8000_0000),
        (0, 0xFFFF_FFFF),
        // Too small; begin rounds past end in some, past 2^32 in others.
        (0, 1),
        (0x2007_0001, 0x2007_0003),
        (0x2007_0000, 0x2007_0028),
        (0xFFFF_FF01, 0xFFFF_FFFF),
        (0xFFFF_FFFE, 0xFFFF_FFFF),
    ];
    for numbers in Numbers::product(&ALIGNMENT_EXTREMES, &COUNT_EXTREMES) {
        for (begin, end) in REGIONS {
            visit(numbers.region(begin, end));
        }
    }
}

fn any_numbers(random: &mut Random) -> Request {
    Request {
        begin: random.any(),
        end: random.any(),
        local_blocks: random.any(),
        remote_blocks: random.any(),
        alignment: random.any(),
    }
}

fn plausible(random: &mut Random) -> Request {
    // Small regions are as frequent as large ones.
    let most = LARGEST_REGION >> random.below(16);
    let length = random.between(1, most);
    let begin = random.between(0, LAST - length);
    good_numbers(random)
        .region_of(begin, length)
        .expect("begin leaves space for the length")
}

fn near_limit(random: &mut Random) -> Request {
    let numbers = good_numbers(random);
    let a = i64::from(numbers.alignment);
    let [ring, _, one_unit, two_units] = numbers.size_limits();
    let limit = match random.below(4) {
        0 => ring,
        1 => one_unit,
        2 => one_unit + (two_units - one_unit) * random.between(1, 12),
        _ => LARGEST_REGION,
    };
    let length = limit + random.between(-2 * a, 2 * a);
    let gap = random.between(0, 2 * a);
    // Below the ring minimum a length can be negative; the region is then the
    // wrong way round.
    let last = LAST - length.abs();
    let begin = match random.below(3) {
        0 => gap,
        1 => last - gap,
        _ => random.between(0, last),
    };
    numbers
        .region_of(begin + (-length).max(0), length)
        .expect("begin leaves space for the length")
}

fn corners_mixed_in(random: &mut Random) -> Request {
    let mut request = if random.one_in(2) {
        plausible(random)
    } else {
        near_limit(random)
    };
    for number in [
        &mut request.begin,
        &mut request.end,
        &mut request.local_blocks,
        &mut request.remote_blocks,
        &mut request.alignment,
    ] {
        if random.one_in(5) {
            *number = corner(random);
        }
    }
    request
}

/// A number near 0, near the last one or near a power of two, or any.
pub fn corner(random: &mut Random) -> u32 {
    let near = random.below(600) as u32;
    match random.below(4) {
        0 => near,
        1 => u32::MAX - near,
        2 => (1 << random.below(32)) - random.below(2) as u32,
        _ => random.any(),
    }
}

/// Block counts and alignment within the limits.
pub fn good_numbers(random: &mut Random) -> Numbers {
    Numbers {
        local_blocks: good_count(random),
        remote_blocks: good_count(random),
        alignment: random.pick(&ALIGNMENTS),
    }
}

/// Few blocks, as usual, or any good count.
fn good_count(random: &mut Random) -> u32 {
    let most = random.pick(&[4, 32, MOST_BLOCKS]);
    1 + random.below(u64::from(most)) as u32
}
