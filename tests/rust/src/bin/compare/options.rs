//! What the command line asks for.

use crate::wire::case_from_words;
use second_opinion::data::Case;
use std::path::PathBuf;
use std::time::{SystemTime, UNIX_EPOCH};

/// How the program is called.
pub const USAGE: &str = "\
compare [--cases N] [--seed S]     the first N cases of seed S (100000; the clock)
        [--forever]                cases of new seeds from the clock, without end
        [--only INDEX]             one case of the seed
        [--case WORDS]             this case, with the seed's and the index's questions
        [--all-presses]            every moment and state that is worth a press
        [--program PATH]           every K-th case also through the program check
        [--every K]                (100)
        [--threads T]              one or two (2)";

/// What to do.
#[derive(Clone)]
pub struct Options {
    pub cases: u64,
    pub seed: u64,
    pub forever: bool,
    pub only: Option<u64>,
    pub case: Option<Case>,
    pub all_presses: bool,
    pub program: Option<PathBuf>,
    pub every: u64,
    pub threads: u64,
}

/// A seed that was not used before.
pub fn seed_from_the_clock() -> u64 {
    let since = SystemTime::now().duration_since(UNIX_EPOCH);
    since.map_or(0, |time| time.as_nanos() as u64)
}

impl Options {
    /// What to do when nothing is asked for.
    fn usual() -> Options {
        Options {
            cases: 100_000,
            seed: seed_from_the_clock(),
            forever: false,
            only: None,
            case: None,
            all_presses: false,
            program: None,
            every: 100,
            threads: 2,
        }
    }

    /// What these arguments ask for, or which of them makes no sense.
    pub fn read(mut arguments: impl Iterator<Item = String>) -> Result<Options, String> {
        let mut options = Options::usual();
        while let Some(name) = arguments.next() {
            let mut value = || arguments.next().ok_or(format!("{name} needs a value"));
            match name.as_str() {
                "--cases" => options.cases = number(&value()?)?,
                "--seed" => options.seed = number(&value()?)?,
                "--forever" => options.forever = true,
                "--only" => options.only = Some(number(&value()?)?),
                "--case" => options.case = Some(case(&value()?)?),
                "--all-presses" => options.all_presses = true,
                "--program" => options.program = Some(PathBuf::from(value()?)),
                "--every" => options.every = number(&value()?)?.max(1),
                "--threads" => options.threads = number(&value()?)?.clamp(1, 2),
                _ => return Err(format!("{name} is not known")),
            }
        }
        Ok(options)
    }
}

/// The number spelled here, or that it is none.
fn number(spelled: &str) -> Result<u64, String> {
    let number = spelled.parse();
    number.map_err(|_| format!("{spelled} is no number"))
}

/// The case spelled here, or that it is none.
fn case(spelled: &str) -> Result<Case, String> {
    case_from_words(spelled).ok_or(format!("{spelled} is no case"))
}
