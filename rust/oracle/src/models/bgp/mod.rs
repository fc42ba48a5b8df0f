//! Holds the original FlowSpec files at their own path.

// They stay byte for byte, so the formatter keeps off, and old compilers may say nothing about
// `DivCeil` standing in for a method that they plan to have.
#[rustfmt::skip]
#[allow(unstable_name_collisions, clippy::incompatible_msrv)]
pub mod flowspec;
