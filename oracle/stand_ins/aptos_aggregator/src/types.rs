/// Named by the old files in a conversion that no ticket reaches.
pub enum PanicOr<T> {
    CodeInvariantError(String),
    Or(T),
}

pub enum DelayedFieldsSpeculativeError {
    NotFound(u64),
    DeltaApplication,
}
