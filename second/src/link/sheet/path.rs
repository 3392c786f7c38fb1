//! Paths: the tags that lead to a field.

use crate::link::fault::{planted, unless, Fault};
use crate::link::refusal::{refuse, Refusal};

/// The most tags of a path.
pub const LONGEST_PATH: usize = 5;

/// The lowest tag of a group.
pub const FIRST_GROUP: u8 = 0x80;

/// A path as one number: a 1, and behind it a byte for each tag. Paths of
/// different lengths differ, too.
#[derive(Clone, Copy, PartialEq, Eq, PartialOrd, Ord)]
pub struct Path(u64);

impl Path {
    /// Leads to the sheet's own list.
    pub const EMPTY: Path = Path(1);

    /// Of a few tags.
    pub fn of(tags: &[u8]) -> Self {
        tags.iter()
            .fold(Path::EMPTY, |path, &tag| path.followed_by(tag))
    }

    pub fn followed_by(self, tag: u8) -> Self {
        Path(self.0 << 8 | u64::from(tag))
    }

    /// How many tags it has: the depth of a list that it leads to.
    pub fn length(self) -> usize {
        self.0.ilog2() as usize / 8
    }

    /// What two fields of one list must not have in common: the path as it is,
    /// unless a fault is planted.
    pub fn judged(self) -> Self {
        let last = Path(self.0 & 0xFF);
        let path = unless(Fault::TagsAcrossLists, self, last);
        unless(Fault::TagsOf7Bits, path, Path(self.0 & !0x80))
    }
}

/// Refuses a path that no sheet could have, but for the kind of its last tag.
pub fn check(path: &[u8]) -> Result<(), Refusal> {
    let longest = unless(Fault::FiveTagsRefused, LONGEST_PATH, 4);
    let longest = unless(Fault::SixTagsAccepted, longest, 6);
    let fifth = path.get(4).is_some_and(|&tag| tag >= FIRST_GROUP);
    refuse(
        path.len() > longest || fifth && planted(Fault::FifthGroupRefused),
        Refusal::BadPath,
    )?;
    let Some((_, passed)) = path.split_last() else {
        return refuse(!planted(Fault::EmptyPathIsSheet), Refusal::BadPath);
    };
    let passed = unless(Fault::LastTagChecked, passed, path);
    let leaf = passed.iter().any(|&tag| tag < FIRST_GROUP);
    refuse(leaf && !planted(Fault::LeafPassed), Refusal::BadPath)
}
