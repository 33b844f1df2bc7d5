//! Stand-in for `claims`: assertions with that crate's messages.

#[macro_export]
macro_rules! assert_some {
    ($value:expr, $($message:tt)+) => {
        if $value.is_none() {
            panic!("assertion failed, expected Some(..), got None: {}", format_args!($($message)+));
        }
    };
}

#[macro_export]
macro_rules! assert_none {
    ($value:expr, $($message:tt)+) => {
        if $value.is_some() {
            panic!("assertion failed, expected None, got Some(..): {}", format_args!($($message)+));
        }
    };
}

#[macro_export]
macro_rules! assert_matches {
    ($value:expr, $pattern:pat) => {
        match $value {
            $pattern => (),
            ref other => panic!(
                "assertion failed, expression does not match any of the given patterns.\n\texpression: {:?}\n\tpatterns: {}",
                other,
                stringify!($pattern)
            ),
        }
    };
}
