//! Counts what was checked and prints the first few failures.

const SHOWN: u64 = 12;

#[derive(Default)]
pub struct Report {
    pub checks: u64,
    pub failures: u64,
}

impl Report {
    /// Counts one check, and a failure unless `holds`.
    pub fn check(&mut self, holds: bool, what: impl FnOnce() -> String) {
        self.checks += 1;
        if holds {
            return;
        }
        self.failures += 1;
        if self.failures <= SHOWN {
            println!("oracle: mismatch: {}", what());
        }
    }

    /// Counts the check that two values are equal.
    pub fn equal<T: PartialEq + std::fmt::Debug>(
        &mut self,
        expected: &T,
        found: &T,
        what: impl FnOnce() -> String,
    ) {
        self.check(expected == found, || {
            let what = what();
            let text = format!("{what}: expected {expected:?}, found {found:?}");
            text.chars().take(600).collect()
        });
    }
}
