//! The port beside the original Rust and document 01's rules.

pub mod answers;
pub mod calls;
pub mod descriptors;
pub mod histories;
pub mod lent;
pub mod original;
pub mod port;
pub mod program;
