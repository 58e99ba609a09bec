//! The root of the crate, which is not the original's: it names the original's files and gives the macros that they use.
#![allow(dead_code, unexpected_cfgs, clippy::all)]

macro_rules! log_error {
    ($($t:tt)*) => {{ let _ = format_args!($($t)*); }};
}
pub(crate) use log_error;

pub mod core_interfaces;
mod debug;
pub mod protocol;
pub mod rs;
mod types {
    pub mod client;
}
