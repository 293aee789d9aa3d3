//! Random numbers for tests that try many orders of calls.

/// A small generator that gives the same numbers in each run.
pub(crate) struct TestRandom(pub u64);

impl TestRandom {
    pub fn below(&mut self, end: u64) -> u64 {
        self.0 = self.0.wrapping_mul(6364136223846793005).wrapping_add(1442695040888963407);
        (self.0 >> 33) % end
    }
}
