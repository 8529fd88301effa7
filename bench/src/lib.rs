//! The archive in plain Rust, written as one writes it without proofs: what the product is measured against. It owns its
//! members, with each one's box beside it.

pub mod archive;
pub mod log;
pub mod spaces;
