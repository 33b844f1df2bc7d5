//! A multi-version store for Block-STM, proved: Aptos' `mvhashmap` as a library of Rattle, with the
//! types of the old Rust around it.
//!
//! ```
//! use proved_mvhashmap::*;
//!
//! let map = MVHashMap::with_units(512, 512);
//! let data = map.data();
//!
//! // Transaction 0 writes 100, transaction 1 adds 20 with a limit of 150.
//! let hundred = WriteOp::number(WriteOpKind::Creation, 100, 5);
//! data.write(7, 0, 0, hundred, None)?;
//! data.add_delta(7, 1, DeltaOp::addition(20, 150))?;
//!
//! // A transaction reads what those before it left.
//! let written = ValueWithLayout::Exchanged(hundred, None);
//! assert_eq!(data.fetch_data(7, 0), Err(MVDataError::Uninitialized));
//! assert_eq!(data.fetch_data(7, 1), Ok(MVDataOutput::Versioned(Ok((0, 0)), written)));
//! assert_eq!(data.fetch_data(7, 2), Ok(MVDataOutput::Resolved(120)));
//!
//! // A refusal says why, and has changed nothing.
//! let again = data.write(7, 0, 0, WriteOp::deletion(6), None);
//! assert_eq!(again, Err(Refusal::IncarnationNotHigher));
//! assert_eq!(data.fetch_data(7, 2), Ok(MVDataOutput::Resolved(120)));
//! # Ok::<(), Refusal>(())
//! ```
//!
//! Each function is one request to the proved library, under one lock around both stores; see
//! [`MVHashMap`]. What each request does is 01's rules, which the repository's README sums up;
//! the same README has the format of the words that [`MVHashMap::request`] and [`call`] take.

#![deny(missing_docs)]
#![deny(unsafe_code)]

mod answer;
mod delta;
#[allow(unsafe_code)]
mod ffi;
mod map;
mod refusal;
mod request;
mod tag;
mod types;
mod value;
mod versioned_data;
mod versioned_group_data;
mod words;

pub use delta::{DeltaOp, SignedU128};
pub use map::{call, MVHashMap};
pub use refusal::Refusal;
pub use tag::{Tag, TagOutOfRange};
pub use types::{
    GroupSize, Handle, Incarnation, Key, Layout, MVDataError, MVDataOutput, MVGroupError,
    Materialized, StorageVersion, TxnIndex, Version,
};
pub use value::{ValueWithLayout, WriteOp, WriteOpKind};
pub use versioned_data::VersionedData;
pub use versioned_group_data::VersionedGroupData;

/// The most units that a store has.
pub const MAX_UNITS: usize = 4096;

/// The least length of an answer slice: a head, a set and 64 values.
pub const ANSWER_WORDS: usize = 451;

/// How many words a unit of a store has.
pub const UNIT_WORDS: usize = ffi::UNIT_WORDS;

/// The README's example is a test too.
#[cfg(doctest)]
#[doc = include_str!("../README.md")]
struct Readme;
