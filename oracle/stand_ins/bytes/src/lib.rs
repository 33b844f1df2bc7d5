//! Stand-in for `bytes`. The old files ask only for the length, and a ticket gives only that.

#[derive(Clone, Debug, PartialEq, Eq)]
pub struct Bytes {
    length: usize,
}

impl Bytes {
    pub fn of_length(length: usize) -> Self {
        Self { length }
    }

    // 0 bytes are bytes here; nothing asks whether there are none.
    #[allow(clippy::len_without_is_empty)]
    pub fn len(&self) -> usize {
        self.length
    }
}
