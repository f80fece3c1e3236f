//! Random calls: simulated devices answer the requests, and what they answered
//! is kept as a flat list of outcomes.

pub mod descriptors;
pub mod prng;
pub mod walks;

#[cfg(have_original)]
pub mod history;
#[cfg(have_original)]
pub mod simulator;
