//! Counts what passed and what failed; the last line of each test program is the count.

use std::process::ExitCode;

/// More failures than this are counted and not shown.
const SHOWN: usize = 10;

#[derive(Default)]
pub struct Tally {
    passed: usize,
    failed: usize,
}

impl Tally {
    /// One case: `why` is asked for only where it failed.
    pub fn case(&mut self, holds: bool, why: impl FnOnce() -> String) {
        if holds {
            self.passed += 1;
        } else {
            self.fail(&why());
        }
    }

    /// One case that says itself why it failed.
    pub fn result(&mut self, result: Result<(), String>) {
        match result {
            Ok(()) => self.passed += 1,
            Err(why) => self.fail(&why),
        }
    }

    fn fail(&mut self, why: &str) {
        self.failed += 1;
        if self.failed <= SHOWN {
            println!("FAIL {why}");
        }
    }

    /// The last line and the exit status. A program that tried nothing has not passed.
    pub fn end(self) -> ExitCode {
        println!("{} passed, {} failed", self.passed, self.failed);
        if self.failed == 0 && self.passed > 0 {
            ExitCode::SUCCESS
        } else {
            ExitCode::FAILURE
        }
    }
}
