//! The proved library as contestants: in words, and by the typed crate.

mod typed;
mod typed_call;
mod typed_words;
mod words;

pub use typed::Typed;
pub use words::{Inner, Open};
