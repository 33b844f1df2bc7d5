//! Stand-in for `anyhow`: an error that is its message.

use std::fmt;

pub type Result<T, E = Error> = std::result::Result<T, E>;

pub struct Error(String);

impl Error {
    pub fn msg(message: impl fmt::Display) -> Self {
        Self(message.to_string())
    }
}

impl fmt::Debug for Error {
    fn fmt(&self, f: &mut fmt::Formatter<'_>) -> fmt::Result {
        f.write_str(&self.0)
    }
}

#[macro_export]
macro_rules! bail {
    ($($message:tt)+) => {
        return Err($crate::Error::msg(format!($($message)+)))
    };
}
