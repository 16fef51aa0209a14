//! Suites: cases counted, mismatches printed whole, and the last line.

use std::panic::{catch_unwind, AssertUnwindSafe};
use std::time::Instant;

use crate::random::Rng;

/// How many mismatches of a suite are printed, and after how many it stops.
const PRINTED: u64 = 3;
const ENOUGH: u64 = 10;

pub struct Suite {
    pub rng: Rng,
    cases: u64,
    mismatches: u64,
}

impl Suite {
    /// Counts one case; a false one prints what `tell` says.
    pub fn check(&mut self, good: bool, tell: impl FnOnce() -> String) {
        self.cases += 1;
        if !good {
            self.mismatches += 1;
            if self.mismatches <= PRINTED {
                println!("  MISMATCH\n{}", tell());
            }
        }
    }

    /// Counts one case: two values that must be equal.
    pub fn same<T: PartialEq + std::fmt::Debug>(&mut self, what: &str, found: T, expected: T) {
        let good = found == expected;
        self.check(good, || format!("  {what}\n  found    {found:?}\n  expected {expected:?}"));
    }

    /// Enough mismatches: the rest of the suite would show nothing new.
    pub fn is_over(&self) -> bool {
        self.mismatches >= ENOUGH
    }
}

pub struct Run {
    seed: u64,
    only: Option<String>,
    stop: bool,
    passed: u32,
    failed: u32,
    cases: u64,
}

impl Run {
    /// `only` names a part of the suites' names; with `stop` the first failure is the last suite.
    pub fn new(seed: u64, only: Option<String>, stop: bool) -> Run {
        println!("seed {seed}");
        Run { seed, only, stop, passed: 0, failed: 0, cases: 0 }
    }

    /// Runs a suite, with a seed of its own made from the run's and its name.
    pub fn suite(&mut self, name: &str, body: impl FnOnce(&mut Suite)) {
        if self.only.as_ref().is_some_and(|part| !name.contains(part.as_str())) {
            return;
        }
        if self.stop && self.failed > 0 {
            return;
        }
        let seed = name.bytes().fold(self.seed, |hash, b| (hash ^ b as u64).wrapping_mul(0x0100_0000_01B3));
        let mut suite = Suite { rng: Rng::new(seed), cases: 0, mismatches: 0 };
        let begin = Instant::now();
        let ended = catch_unwind(AssertUnwindSafe(|| body(&mut suite))).is_ok();
        let verdict = if !ended {
            "FAILED: it panicked".to_string()
        } else if suite.mismatches > 0 {
            format!("FAILED: {} mismatches", suite.mismatches)
        } else if suite.cases == 0 {
            "FAILED: no case ran".to_string()
        } else {
            "ok".to_string()
        };
        if verdict == "ok" {
            self.passed += 1;
        } else {
            self.failed += 1;
        }
        self.cases += suite.cases;
        println!(
            "{name}: seed {seed}, {} cases, {:.1} s, {verdict}",
            suite.cases,
            begin.elapsed().as_secs_f64()
        );
    }

    /// A part that cannot be run: a failure if it was asked for.
    pub fn left_out(&mut self, name: &str, why: &str, required: bool) {
        if required {
            println!("{name}: FAILED: {why}");
            self.failed += 1;
        } else {
            println!("{name}: left out: {why}");
        }
    }

    /// Prints the last line; whether all passed.
    pub fn end(self) -> bool {
        println!("{} cases in all", self.cases);
        println!("{} passed, {} failed", self.passed, self.failed);
        self.failed == 0 && self.passed > 0
    }
}
