//! Stand-in for `aptos_types`: what the stores ask of a value.

pub mod executable {
    /// A name in a type that no ticket reaches.
    #[derive(Debug, PartialEq, Eq)]
    pub struct ExecutableDescriptor;
}

pub mod write_set {
    use bytes::Bytes;
    use std::fmt::Debug;

    #[derive(Clone, Copy, Debug, PartialEq, Eq)]
    pub enum WriteOpKind {
        Creation,
        Modification,
        Deletion,
    }

    pub trait TransactionWrite: Debug {
        /// `None` for a deletion.
        fn bytes(&self) -> Option<&Bytes>;
        fn write_op_kind(&self) -> WriteOpKind;
        /// The number in the bytes; `None` for a deletion, an error where there is none.
        fn as_u128(&self) -> anyhow::Result<Option<u128>>;
    }
}
