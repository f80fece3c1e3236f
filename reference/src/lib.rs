//! The original USB core and hub driver, compiled unchanged and run on stores,
//! outcomes and logs as document 01 lays them out.

extern crate alloc;

/// The original prints; the comparison leaves printing out.
#[cfg(have_original)]
macro_rules! println {
    ($($argument:tt)*) => {{}};
}

#[cfg(have_original)]
pub mod device;
#[cfg(have_original)]
pub mod image;
#[cfg(have_original)]
mod never_reached;
#[cfg(have_original)]
pub mod run;
#[cfg(have_original)]
pub mod stand_ins;

#[cfg(have_original)]
pub use never_reached::shutdown;

pub mod actions;
pub mod arguments;
pub mod bench;
pub mod call;
pub mod check_sum;
pub mod fixed;
pub mod generator;
pub mod layout;
pub mod outside;
pub mod rules;
pub mod sample;
pub mod script;
pub mod sound;
pub mod vectors;

/// One line for the programs to print where the original's files are missing.
pub fn original_missing() -> String {
    format!(
        "the original's files are missing: looked in {} (from the package's folder); \
         the variable LIDRUMAK_ORIGINAL names another place",
        env!("REFERENCE_LOOKED_IN")
    )
}
