//! 01's table of the sixteen kinds of ticket.

use crate::value::Value;

#[derive(Clone, Copy, Debug, PartialEq, Eq, Hash, PartialOrd, Ord)]
pub enum Kind {
    LastCommitted,
    Base,
    Write,
    Delta,
    Estimate,
    Remove,
    Fetch,
    Materialise,
    GroupBase,
    Exchange,
    GroupWrite,
    GroupEstimate,
    GroupRemove,
    GroupFetch,
    GroupSize,
    Finalise,
}

/// What a kind's words are. Places count from the head, which is at 0.
struct Shape {
    kind: Kind,
    name: &'static str,
    /// Words after the head, those of a set's values left out.
    fixed: usize,
    index_at: Option<usize>,
    set_at: Option<usize>,
}

const fn shape(
    kind: Kind,
    name: &'static str,
    fixed: usize,
    index_at: Option<usize>,
    set_at: Option<usize>,
) -> Shape {
    Shape { kind, name, fixed, index_at, set_at }
}

const V: usize = Value::WORDS;

const SHAPES: [Shape; 16] = [
    shape(Kind::LastCommitted, "last committed", 1, None, None),
    shape(Kind::Base, "base", 1 + V, None, None),
    shape(Kind::Write, "write", 3 + V, Some(2), None),
    shape(Kind::Delta, "delta", 19, Some(2), None),
    shape(Kind::Estimate, "estimate", 2, Some(2), None),
    shape(Kind::Remove, "remove", 2, Some(2), None),
    shape(Kind::Fetch, "fetch", 2, Some(2), None),
    shape(Kind::Materialise, "materialise", 2, Some(2), None),
    shape(Kind::GroupBase, "group base", 3, None, Some(2)),
    shape(Kind::Exchange, "exchange", 2 + V, None, None),
    shape(Kind::GroupWrite, "group write", 5, Some(2), Some(4)),
    shape(Kind::GroupEstimate, "group estimate", 2, Some(2), None),
    shape(Kind::GroupRemove, "group remove", 2, Some(2), None),
    shape(Kind::GroupFetch, "group fetch", 3, Some(3), None),
    shape(Kind::GroupSize, "group size", 2, Some(2), None),
    shape(Kind::Finalise, "finalise", 2, Some(2), None),
];

/// The largest count of any kind: a group write of all 64 tags.
pub const LARGEST_COUNT: usize = 5 + 64 * V;

impl Kind {
    pub fn all() -> impl Iterator<Item = Kind> {
        SHAPES.iter().map(|shape| shape.kind)
    }

    /// The kind in a head; every number of four bits is one.
    pub fn of_head(head: u32) -> Kind {
        SHAPES[crate::head_kind(head) as usize].kind
    }

    pub fn name(self) -> &'static str {
        self.shape().name
    }

    /// 01's word: a read is a fetch, a group fetch or a group size.
    pub fn is_read(self) -> bool {
        matches!(self, Kind::Fetch | Kind::GroupFetch | Kind::GroupSize)
    }

    /// The index field's word, where the kind has that field and the words reach to it.
    pub fn index(self, words: &[u32]) -> Option<u32> {
        words.get(self.shape().index_at?).copied()
    }

    /// The count that the kind has with this set, if these words reach that far.
    pub fn count(self, words: &[u32]) -> Option<usize> {
        let Some(at) = self.shape().set_at else {
            return Some(self.shape().fixed);
        };
        let ones = words.get(at)?.count_ones() + words.get(at + 1)?.count_ones();
        Some(self.shape().fixed + V * ones as usize)
    }

    fn shape(self) -> &'static Shape {
        &SHAPES[self as usize]
    }
}
