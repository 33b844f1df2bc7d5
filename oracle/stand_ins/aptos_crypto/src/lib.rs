//! Stand-in for `aptos_crypto`: a name in a type that no ticket reaches.

pub mod hash {
    #[derive(Debug, PartialEq, Eq)]
    pub struct HashValue;
}
