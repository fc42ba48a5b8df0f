//! The oracle: the original Rust that the proved code is compared with.
//!
//! `models/bgp/flowspec` holds three files of bgpkit-parser 0.23.0 byte for byte (see `SHA256SUMS`).
//! `models` and `error` stand in for what those files lean on; the rest asks them questions.

// The originals mention a `serde` feature that this crate does not have; Debian 12's compiler does
// not know the lint that says so.
#![allow(unknown_lints, unexpected_cfgs)]

pub mod calls;
pub mod error;
pub mod models;
pub mod plain;
pub mod records;
pub mod requests;
pub mod text;

pub use models::bgp::flowspec;
pub use models::NetworkPrefix;
