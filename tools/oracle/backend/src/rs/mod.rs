//! The client half of the implementation in Rust. Not the original's file.

#[path = "../client_api.rs"]
pub mod client;
mod client_impl;
mod map;
mod socket;
mod wire;

/// The size of a buffer at first.
const DEFAULT_MAX_BUFFER_SIZE: usize = 4096;
