//! `debug!` with logging off: its arguments are checked and not looked at.

#[macro_export]
macro_rules! debug {
    ($($arg:tt)+) => {
        if false {
            let _ = format_args!($($arg)+);
        }
    };
}
