//! Checks of the oracle itself, without the library.

mod faults;
mod listed;
mod worked;

use std::fmt::Debug;

/// Prints each check as it is made, and counts.
#[derive(Default)]
pub struct Checks {
    made: usize,
    failed: usize,
}

impl Checks {
    fn equal<T: PartialEq + Debug>(&mut self, what: &str, is: T, should: T) {
        self.made += 1;
        if is == should {
            println!("ok      {what}");
        } else {
            self.failed += 1;
            println!("FAILED  {what}\n        is     {is:?}\n        should {should:?}");
        }
    }
}

/// True where all is well.
pub fn run() -> bool {
    let mut checks = Checks::default();
    worked::check(&mut checks);
    listed::check(&mut checks);
    faults::check(&mut checks);
    println!("{} checks, {} failed", checks.made, checks.failed);
    checks.failed == 0
}
