//! Stand-in for `move_core_types`: a layout is the word that names it.

pub mod value {
    #[derive(Clone, Debug, PartialEq, Eq)]
    pub struct MoveTypeLayout(pub u32);
}
