//! Stand-in for `serde`: a bound on tags, of which nothing is called.

pub trait Serialize {}

impl Serialize for u8 {}
