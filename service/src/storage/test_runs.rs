//! How many runs a randomised test makes.

/// The sample, or all runs if `TOTXEGUN_TESTS` is `whole`, or the number that it gives.
pub(crate) fn runs(sample: u64, whole: u64) -> u64 {
    match std::env::var("TOTXEGUN_TESTS").as_deref() {
        Err(_) => sample,
        Ok("whole") => whole,
        Ok(runs) => runs.parse().expect("TOTXEGUN_TESTS is whole, or a number"),
    }
}
