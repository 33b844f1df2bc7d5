//! Tags, the names of a group's members.

use std::error::Error;
use std::fmt;

/// The name of a member of a group: 0 to 63.
#[derive(Debug, Clone, Copy, PartialEq, Eq, PartialOrd, Ord, Hash)]
pub struct Tag(u8);

impl Tag {
    /// How many tags there are.
    pub const COUNT: usize = 64;

    /// The tag of a number below 64.
    pub const fn new(number: u8) -> Option<Tag> {
        if (number as usize) < Self::COUNT {
            Some(Tag(number))
        } else {
            None
        }
    }

    /// Its number.
    pub const fn get(self) -> u8 {
        self.0
    }

    /// The tags of a set, bit n for tag n, in rising order.
    pub(crate) fn in_set(set: u64) -> impl Iterator<Item = Tag> {
        (0..Self::COUNT as u8).map(Tag).filter(move |tag| set & tag.bit() != 0)
    }

    pub(crate) fn bit(self) -> u64 {
        1 << self.0
    }
}

/// A number above 63 is no tag.
#[derive(Debug, Clone, Copy, PartialEq, Eq)]
pub struct TagOutOfRange(pub u8);

impl fmt::Display for TagOutOfRange {
    fn fmt(&self, f: &mut fmt::Formatter<'_>) -> fmt::Result {
        write!(f, "a tag is 0 to 63, not {}", self.0)
    }
}

impl Error for TagOutOfRange {}

impl TryFrom<u8> for Tag {
    type Error = TagOutOfRange;

    fn try_from(number: u8) -> Result<Self, TagOutOfRange> {
        Tag::new(number).ok_or(TagOutOfRange(number))
    }
}

impl From<Tag> for u8 {
    fn from(tag: Tag) -> u8 {
        tag.get()
    }
}
