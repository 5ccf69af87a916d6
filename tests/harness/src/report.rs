//! What tests find, and the count of them.

use std::fmt::Debug;
use std::process::ExitCode;

/// What a test found: nothing, or a difference in words.
pub type Outcome = Result<(), String>;

/// The count of passed and failed tests; each is printed as it ends.
#[derive(Default)]
pub struct Report {
    passed: usize,
    failed: usize,
}

impl Report {
    pub fn add(&mut self, name: &str, outcome: Outcome) {
        match outcome {
            Ok(()) => {
                println!("passed {name}");
                self.passed += 1;
            }
            Err(difference) => {
                println!("FAILED {name}\n{difference}");
                self.failed += 1;
            }
        }
    }

    /// Prints the count, which is the last line, and says how the program ends.
    pub fn end(&self) -> ExitCode {
        println!("{} passed, {} failed", self.passed, self.failed);
        if self.failed == 0 {
            ExitCode::SUCCESS
        } else {
            ExitCode::FAILURE
        }
    }
}

pub fn equal<T: PartialEq + Debug>(what: &str, expected: &T, found: &T) -> Outcome {
    if expected == found {
        Ok(())
    } else {
        Err(format!("{what} differs\nexpected {expected:?}\nfound    {found:?}"))
    }
}
