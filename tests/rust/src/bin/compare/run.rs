//! Runs over many cases.

use crate::asking::Asking;
use crate::cases::{case_for, random_for, Use};
use crate::coverage::Coverage;
use crate::difference::{Difference, Outcome};
use crate::options::Options;
use crate::wire::case_in_words;
use second_opinion::data::Case;
use std::panic::{catch_unwind, AssertUnwindSafe};
use std::sync::atomic::{AtomicU64, Ordering};
use std::thread;

/// After so many differences a run ends.
const MOST_DIFFERENCES: u64 = 20;

/// The name under which cases are counted.
const CASES: &str = "cases";

/// Room for the deepest calls.
const STACK_BYTES: usize = 64 << 20;

/// What came of a run.
pub struct Ran {
    pub coverage: Coverage,
    pub differences: u64,
}

impl Ran {
    /// How many cases were asked about, which are fewer than wanted where the run ended early.
    pub fn cases(&self) -> u64 {
        self.coverage.asked.get(CASES).copied().unwrap_or(0)
    }
}

/// Compares on the first cases of the seed.
pub fn run(options: &Options) -> Ran {
    let differences = AtomicU64::new(0);
    let mut coverage = Coverage::new();
    thread::scope(|scope| {
        let start = |first: u64| {
            let share = (first..options.cases).step_by(options.threads as usize);
            let differences = &differences;
            let worker = thread::Builder::new().stack_size(STACK_BYTES);
            worker.spawn_scoped(scope, move || run_share(options, share, differences))
        };
        let workers: Vec<_> = (0..options.threads).map(start).collect();
        for worker in workers {
            let share = worker.expect("a thread").join().expect("a share");
            coverage.add(&share);
        }
    });
    Ran {
        coverage,
        differences: differences.into_inner(),
    }
}

/// Compares on some cases of the seed.
fn run_share(
    options: &Options,
    share: impl Iterator<Item = u64>,
    differences: &AtomicU64,
) -> Coverage {
    let mut coverage = Coverage::new();
    for index in share {
        let case = case_for(options.seed, index);
        if run_case(options, index, &case, &mut coverage).is_some()
            && differences.fetch_add(1, Ordering::Relaxed) + 1 >= MOST_DIFFERENCES
        {
            break;
        }
    }
    coverage
}

/// Compares on one case; a difference is printed and given back.
pub fn run_case(
    options: &Options,
    index: u64,
    case: &Case,
    coverage: &mut Coverage,
) -> Option<Difference> {
    coverage.asked(CASES);
    let asked = catch_unwind(AssertUnwindSafe(|| {
        let random = random_for(options.seed, index, Use::Asking);
        Asking::about(case, index, random, options, coverage).all()
    }));
    let difference = asked.unwrap_or_else(|_| panicked()).err()?;
    print_difference(options, index, case, &difference);
    Some(difference)
}

/// That the second implementation came to no answer.
fn panicked() -> Outcome {
    Err(Difference {
        question: "any".to_string(),
        second: "a panic, told above".to_string(),
        archive: "not asked".to_string(),
    })
}

/// Prints a difference so that it can be repeated.
fn print_difference(options: &Options, index: u64, case: &Case, difference: &Difference) {
    println!(
        "DIFFERENCE --seed {} --only {index}\n  question: {}\n  second:   {}\n  archive:  {}\n  --case {}",
        options.seed,
        difference.question,
        difference.second,
        difference.archive,
        case_in_words(case),
    );
}
