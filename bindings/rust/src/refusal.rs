//! Why a request was refused.

use std::error::Error;
use std::fmt;

/// Why a request was refused. The lowest number that applies is given, and a refused request has
/// changed nothing.
#[repr(u32)]
#[derive(Debug, Clone, Copy, PartialEq, Eq, Hash)]
pub enum Refusal {
    /// The answer slice has under [`ANSWER_WORDS`](crate::ANSWER_WORDS) words.
    AnswerTooShort = 1,
    /// The request is empty, or its count is wrong for its kind or for the words handed in.
    WrongCount = 2,
    /// A field breaks its rule: a length above 1,048,576, a number where there is none, a delta
    /// whose update leaves its bounds, an exchange to a deletion.
    BadField = 3,
    /// The index is above 4,294,967,294 (`materialize_delta`: above 4,294,967,293).
    IndexTooHigh = 4,
    /// A lent store's words are not those of a store. An [`MVHashMap`](crate::MVHashMap) never
    /// gives it.
    DamagedStore = 5,
    /// There is no entry, update or base where the request needs one.
    NothingThere = 6,
    /// A write over a write needs a higher incarnation.
    IncarnationNotHigher = 7,
    /// A later base differs from the recorded one.
    BaseDiffers = 8,
    /// A value with a layout stands under a delta.
    LayoutUnderDelta = 9,
    /// A value without a number stands under a delta.
    NoNumberUnderDelta = 10,
    /// The commit rule: a deletion or modification of nothing, a creation of something.
    CommitRule = 11,
    /// An exchange over a raw base whose committed value is absent or already exchanged.
    NothingToExchange = 12,
    /// A read for materialising that is neither resolved nor unresolved.
    NotMaterializable = 13,
    /// The store has too few units for what the request would leave.
    UnitsExhausted = 14,
}

impl Refusal {
    /// Every refusal, in the order of the numbers.
    pub const ALL: [Refusal; 14] = [
        Refusal::AnswerTooShort,
        Refusal::WrongCount,
        Refusal::BadField,
        Refusal::IndexTooHigh,
        Refusal::DamagedStore,
        Refusal::NothingThere,
        Refusal::IncarnationNotHigher,
        Refusal::BaseDiffers,
        Refusal::LayoutUnderDelta,
        Refusal::NoNumberUnderDelta,
        Refusal::CommitRule,
        Refusal::NothingToExchange,
        Refusal::NotMaterializable,
        Refusal::UnitsExhausted,
    ];

    /// The number, 1 to 14, that the call gives for it.
    pub fn number(self) -> u32 {
        self as u32
    }

    /// The refusal of a number; none for 0 and for numbers above 14.
    pub fn from_number(number: u32) -> Option<Self> {
        let place = (number as usize).checked_sub(1)?;
        Self::ALL.get(place).copied()
    }

    /// What a call's result says.
    pub(crate) fn of_result(result: u32) -> Result<(), Refusal> {
        match (result, Self::from_number(result)) {
            (0, _) => Ok(()),
            (_, Some(refusal)) => Err(refusal),
            (number, None) => unreachable!("a call's result is 0 to 14, not {number}"),
        }
    }
}

impl fmt::Display for Refusal {
    fn fmt(&self, f: &mut fmt::Formatter<'_>) -> fmt::Result {
        f.write_str(match self {
            Refusal::AnswerTooShort => "the answer slice has under 451 words",
            Refusal::WrongCount => "the request's count of words is wrong",
            Refusal::BadField => "a field breaks its rule",
            Refusal::IndexTooHigh => "the transaction index is too high",
            Refusal::DamagedStore => "a store's words are damaged",
            Refusal::NothingThere => "nothing is there",
            Refusal::IncarnationNotHigher => "the incarnation is not higher",
            Refusal::BaseDiffers => "the base differs from the recorded one",
            Refusal::LayoutUnderDelta => "a value with a layout is under a delta",
            Refusal::NoNumberUnderDelta => "a value without a number is under a delta",
            Refusal::CommitRule => "a write's kind does not fit the committed group",
            Refusal::NothingToExchange => "no raw committed value is there to exchange",
            Refusal::NotMaterializable => "what is materialised is neither resolved nor unresolved",
            Refusal::UnitsExhausted => "the store has too few units",
        })
    }
}

impl Error for Refusal {}
