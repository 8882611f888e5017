//! Groups of checks, counted and told.

use std::time::Instant;

/// How many failures of a group are told in words.
const TOLD: u64 = 5;

/// Checks under one name.
pub struct Group {
    checks: u64,
    failures: u64,
}

impl Group {
    /// Counts a check; a failure is told by what `words` gives.
    pub fn check(&mut self, holds: bool, words: impl FnOnce() -> String) {
        self.checks += 1;
        if !holds {
            self.failures += 1;
            if self.failures <= TOLD {
                println!("  failed: {}", words());
            }
        }
    }
}

/// Runs a group and prints its line; true if all its checks hold.
pub fn group(name: &str, work: fn(&mut Group)) -> bool {
    let start = Instant::now();
    let mut group = Group { checks: 0, failures: 0 };
    work(&mut group);
    let word = if group.failures == 0 && group.checks > 0 { "ok" } else { "FAILED" };
    let seconds = start.elapsed().as_secs_f64();
    println!(
        "{name}: {} checks, {} failed, {word} ({seconds:.1} s)",
        group.checks, group.failures
    );
    group.failures == 0 && group.checks > 0
}
