//! Stand-in for `move_binary_format`: an error that the stand-in for the group size never gives.

pub mod errors {
    #[derive(Debug)]
    pub struct PartialVMError;
}
