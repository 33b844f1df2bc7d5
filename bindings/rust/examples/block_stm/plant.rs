//! Planted faults: an executor that leaves out one of its duties must be found out.

#[derive(Debug, Clone, Copy, PartialEq, Eq)]
pub enum Plant {
    /// Every validation passes.
    SkipValidation,
    /// An aborted pass leaves its entries unmarked.
    ForgetEstimate,
    /// Entries of an earlier pass that the new one does not write are left there.
    ForgetRemoval,
    /// A pass that wrote somewhere new is not followed by the validation of those above it.
    ForgetNewPath,
    /// Validation takes any number for the one read before.
    AnyNumber,
    /// Validation takes any size of a group for the one read before.
    AnySize,
    /// Every pass writes as the first incarnation.
    OneIncarnation,
    /// A transaction that waits for another is not woken.
    LoseWakeup,
    /// A transaction that waits for another stays counted as one at work.
    LoseTask,
    /// Groups are finalised from the end of the block.
    FinalizeBackwards,
    /// Deltas are not materialised.
    SkipMaterialize,
}

impl Plant {
    pub const ALL: [(&'static str, Plant); 11] = [
        ("skip-validation", Plant::SkipValidation),
        ("forget-estimate", Plant::ForgetEstimate),
        ("forget-removal", Plant::ForgetRemoval),
        ("forget-new-path", Plant::ForgetNewPath),
        ("any-number", Plant::AnyNumber),
        ("any-size", Plant::AnySize),
        ("one-incarnation", Plant::OneIncarnation),
        ("lose-wakeup", Plant::LoseWakeup),
        ("lose-task", Plant::LoseTask),
        ("finalise-backwards", Plant::FinalizeBackwards),
        ("skip-materialise", Plant::SkipMaterialize),
    ];

    pub fn name(self) -> &'static str {
        let (name, _) = Plant::ALL.iter().find(|(_, plant)| *plant == self).expect("all are there");
        name
    }

    pub fn named(name: &str) -> Option<Plant> {
        Plant::ALL.iter().find(|(known, _)| *known == name).map(|(_, plant)| *plant)
    }
}
