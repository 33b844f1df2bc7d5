//! What the tests share. Each file of tests uses a part of it.
#![allow(dead_code)]

pub mod lent;
pub mod random;
pub mod some;
pub mod valid;
pub mod words;
