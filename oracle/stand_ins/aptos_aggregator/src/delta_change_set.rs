//! 01, "Delta". Sums are exact: one that leaves 128 bits is above every limit, so it is a
//! failure and never a wrapped number.

/// The update u. Zero is always `Plus`.
#[derive(Clone, Copy, Debug, PartialEq, Eq)]
pub enum Update {
    Plus(u128),
    Minus(u128),
}

#[derive(Clone, Copy, Debug, PartialEq, Eq)]
pub struct DeltaOp {
    /// M of 01.
    pub limit: u128,
    /// H of 01.
    pub highest: u128,
    /// L of 01, a depth.
    pub lowest: u128,
    pub update: Update,
}

/// Why an application or a merge failed; the old files only ask whether it did.
#[derive(Debug)]
pub struct DeltaFailure;

impl DeltaOp {
    /// "Applying to v succeeds exactly if v ≥ L and v + H ≤ M, giving v + u."
    pub fn apply_to(&self, base: u128) -> Result<u128, DeltaFailure> {
        let top = base.checked_add(self.highest);
        if base < self.lowest || top.is_none_or(|top| top > self.limit) {
            return Err(DeltaFailure);
        }
        Ok(match self.update {
            Update::Plus(size) => base + size,
            Update::Minus(size) => base - size,
        })
    }

    /// "Merging a newer delta (H, L, u) onto an earlier (H', L', u') gives max(H', u' + H),
    /// max(L', L − u'), u' + u. It fails exactly if the limits differ or the new H or L
    /// exceeds M." `self` is the newer one.
    pub fn merge_with_previous_delta(&mut self, previous: DeltaOp) -> Result<(), DeltaFailure> {
        let (up, down) = match previous.update {
            Update::Plus(size) => (size, 0),
            Update::Minus(size) => (0, size),
        };
        let highest = shifted(self.highest, up, down).map(|h| h.max(previous.highest));
        let lowest = shifted(self.lowest, down, up).map(|l| l.max(previous.lowest));
        match (highest, lowest) {
            (Some(highest), Some(lowest))
                if self.limit == previous.limit
                    && highest <= self.limit
                    && lowest <= self.limit =>
            {
                self.update = sum(previous.update, self.update);
                self.highest = highest;
                self.lowest = lowest;
                Ok(())
            }
            _ => Err(DeltaFailure),
        }
    }
}

/// `size + more - less`, 0 where that is negative (a maximum with a size follows), `None`
/// where it has no 128 bits.
fn shifted(size: u128, more: u128, less: u128) -> Option<u128> {
    size.checked_add(more).map(|sum| sum.saturating_sub(less))
}

/// Exact here: it lies between minus the new L and the new H, which the limit bounds.
fn sum(earlier: Update, newer: Update) -> Update {
    use Update::{Minus, Plus};
    match (earlier, newer) {
        (Plus(a), Plus(b)) => Plus(a + b),
        (Minus(a), Minus(b)) => Minus(a + b),
        (Plus(up), Minus(down)) | (Minus(down), Plus(up)) => {
            if up >= down {
                Plus(up - down)
            } else {
                Minus(down - up)
            }
        }
    }
}
