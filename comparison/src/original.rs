//! The original's walk. Where its files are missing the rules answer for it.

use reference::outside::Outside;

/// The original's answer, or the case in which it is outside the comparison.
#[cfg(have_original)]
pub fn configuration_walk(descriptors: &[u8], record: &mut [u8]) -> Result<i32, Outside> {
    use reference::call::Ended;
    match reference::run::run_walk(descriptors, record) {
        (answer, Ended::Inside) => Ok(answer),
        (_, Ended::Outside(case)) => Err(case),
        (_, Ended::Unexplained(text)) => panic!("the original panicked in {text}: {descriptors:?}"),
    }
}

/// The rules' answer, or the case in which the original would be outside the
/// comparison.
#[cfg(not(have_original))]
pub fn configuration_walk(descriptors: &[u8], record: &mut [u8]) -> Result<i32, Outside> {
    let answer = reference::rules::configuration_walk(descriptors, record);
    match reference::outside::walk(descriptors) {
        Some(case) if answer != reference::rules::ERROR_ARGUMENT => Err(case),
        _ => Ok(answer),
    }
}
