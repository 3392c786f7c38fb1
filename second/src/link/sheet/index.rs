//! Reading a sheet: all its fields, each with its whole path.
//!
//! Two equal tags in one list are then the same path twice, and a look-up
//! passes through no group.

use std::collections::VecDeque;
use std::ops::Range;

use super::path::{Path, FIRST_GROUP};
use crate::link::fault::{planted, unless, Fault};

/// The most bytes of a sheet.
pub const LARGEST_SHEET: usize = 4096;

/// A list of this depth has no groups; the sheet's own has depth 0.
pub const DEEPEST: usize = 4;

/// The longest value.
pub const LONGEST_VALUE: usize = u8::MAX as usize;

/// Bytes of a field before its value: tag and length.
pub const HEADER: usize = 2;

/// Why a sheet is malformed.
#[derive(Clone, Copy)]
pub enum Flaw {
    TooLong,
    LeftOver,
    PastTheEnd,
    TooDeep,
    EqualTags,
}

impl Flaw {
    pub const ALL: [Flaw; 5] = [
        Flaw::TooLong,
        Flaw::LeftOver,
        Flaw::PastTheEnd,
        Flaw::TooDeep,
        Flaw::EqualTags,
    ];

    pub fn sentence(self) -> &'static str {
        match self {
            Flaw::TooLong => "over 4,096 bytes",
            Flaw::LeftOver => "one byte where a field should begin",
            Flaw::PastTheEnd => "a length that reaches past the end of its list",
            Flaw::TooDeep => "a group in a list of depth 4",
            Flaw::EqualTags => "two fields of one list with the same tag",
        }
    }
}

pub struct Field {
    path: Path,
    /// Of the value, from the sheet's first byte.
    pub begin: usize,
    pub size: usize,
}

/// A list that is still to be read.
struct List {
    path: Path,
    bytes: Range<usize>,
}

/// The fields of a sheet, those of one list in their order.
#[derive(Default)]
pub struct Index {
    fields: Vec<Field>,
}

impl Index {
    pub fn read(sheet: &[u8]) -> Result<Self, Flaw> {
        let length = sheet.len();
        let sheet = &sheet[..unless(Fault::SheetInTwoBytes, length, length & 0xFFFF)];
        check_length(sheet)?;
        let mut index = Index::default();
        let mut lists = VecDeque::from([List {
            path: Path::EMPTY,
            bytes: 0..sheet.len(),
        }]);
        while let Some(list) = lists.pop_front() {
            index.read_list(sheet, &list, &mut lists)?;
        }
        if index.has_equal_tags() {
            return Err(Flaw::EqualTags);
        }
        Ok(index)
    }

    /// Takes in the fields of a list. The lists in its groups are read later.
    fn read_list(
        &mut self,
        sheet: &[u8],
        list: &List,
        lists: &mut VecDeque<List>,
    ) -> Result<(), Flaw> {
        let mut at = list.bytes.start;
        while at < list.bytes.end {
            let tag = sheet[at];
            if tag == 0 && planted(Fault::ZeroEndsList) {
                break;
            }
            if tag == 0 && planted(Fault::ZeroIsPadding) {
                at += 1;
                continue;
            }
            if at + 1 == list.bytes.end && planted(Fault::LeftOverAccepted) {
                break;
            }
            let value = value_at(sheet, &list.bytes, at)?;
            at = value.end;
            let path = list.path.followed_by(tag);
            let counted_from = unless(Fault::BeginInGroup, 0, list.bytes.start);
            self.fields.push(Field {
                path,
                begin: value.start - counted_from,
                size: value.len(),
            });
            if tag >= unless(Fault::GroupsFrom81, FIRST_GROUP, 0x81) {
                check_depth(list, &value)?;
                let unread = path.length() == DEEPEST && planted(Fault::DeepUnread);
                lists.extend((!unread).then_some(List { path, bytes: value }));
            }
        }
        Ok(())
    }

    fn has_equal_tags(&self) -> bool {
        if planted(Fault::EqualTagsAccepted) || planted(Fault::LastOfEqual) {
            return false;
        }
        let paths = self.fields.iter().map(|field| field.path.judged());
        let mut paths: Vec<Path> = paths.collect();
        if !planted(Fault::NeighboursCompared) {
            paths.sort_unstable();
        }
        paths.windows(2).any(|pair| pair[0] == pair[1])
    }

    pub fn find(&self, tags: &[u8]) -> Option<&Field> {
        let path = Path::of(tags);
        let mut fields = self.fields.iter();
        let found = if planted(Fault::LastOfEqual) {
            fields.rfind(|field| field.path == path)
        } else {
            fields.find(|field| field.path == path)
        };
        let is_group = tags.last().is_some_and(|&tag| tag >= FIRST_GROUP);
        if is_group && planted(Fault::GroupNotFound) {
            return None;
        }
        if is_group && planted(Fault::GroupGivesFirst) {
            return found.and_then(|group| self.first_of(group));
        }
        found.filter(|field| field.size > 0 || !planted(Fault::EmptyNotFound))
    }

    /// The first field of a group, which a planted fault takes for the group.
    fn first_of(&self, group: &Field) -> Option<&Field> {
        let begin = group.begin + HEADER;
        let mut fields = self.fields.iter();
        fields.find(|field| group.size > 0 && field.begin == begin)
    }
}

fn check_length(sheet: &[u8]) -> Result<(), Flaw> {
    let most = unless(Fault::LargerSheet, LARGEST_SHEET, LARGEST_SHEET + 1);
    let most = unless(Fault::LargestSheetRefused, most, LARGEST_SHEET - 1);
    if sheet.len() > most {
        return Err(Flaw::TooLong);
    }
    if sheet.is_empty() && planted(Fault::EmptySheetRefused) {
        return Err(Flaw::LeftOver);
    }
    Ok(())
}

/// The value of the field at that place of a list.
fn value_at(sheet: &[u8], list: &Range<usize>, at: usize) -> Result<Range<usize>, Flaw> {
    let &[_, length, ..] = &sheet[at..list.end] else {
        return Err(Flaw::LeftOver);
    };
    let length = unless(Fault::LengthOf7Bits, length, length & 0x7F);
    let begin = at + HEADER;
    let end = begin + usize::from(length);
    let most = unless(Fault::SheetEndsLists, list.end, sheet.len());
    if end == most + 1 && planted(Fault::OnePastEnd) {
        return Ok(begin..most);
    }
    if end > most {
        return Err(Flaw::PastTheEnd);
    }
    Ok(begin..end)
}

/// Refuses a group with that value in a list that may have none.
fn check_depth(list: &List, value: &Range<usize>) -> Result<(), Flaw> {
    let deepest = unless(Fault::FiveDeep, DEEPEST, 5);
    let deepest = unless(Fault::FourDeepRefused, deepest, 3);
    let passed_over = value.is_empty() && planted(Fault::EmptyDeepAccepted);
    if list.path.length() >= deepest && !passed_over {
        return Err(Flaw::TooDeep);
    }
    Ok(())
}
