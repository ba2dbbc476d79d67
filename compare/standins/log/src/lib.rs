//! Stands in for the crate `log`: m17core uses only `debug!`, and nothing reads what it says.

/// Takes what it is given and does nothing. The formatting is still checked by the compiler.
#[macro_export]
macro_rules! debug {
    ($($said:tt)*) => {{
        if false {
            let _ = format_args!($($said)*);
        }
    }};
}
