//! Compares the second implementation with the proved one, case by case, and counts what came up.

mod archive;
mod asking;
mod cases;
mod coverage;
mod difference;
mod invented;
mod kept;
mod lent;
mod moments;
mod options;
mod pressing;
mod questions;
mod run;
mod spoiled;
mod states;
mod strengths;
mod tables;
mod tables_orders;
mod tables_strengths;
mod wire;
mod wire_pairs;

use coverage::Coverage;
use options::{seed_from_the_clock, Options, USAGE};
use questions::program::output_of;
use std::process::ExitCode;
use std::time::Instant;
use tables::Report;

/// How many cases each seed gives in a run without end.
const CASES_OF_A_SEED: u64 = 20_000;

/// Does what the command line asks for; 1 is a difference or something missing, 2 a command line without sense.
fn main() -> ExitCode {
    let options = match Options::read(std::env::args().skip(1)) {
        Ok(options) => options,
        Err(trouble) => {
            eprintln!("{trouble}\n{USAGE}");
            return ExitCode::from(2);
        }
    };
    if let Some(Err(error)) = options.program.as_deref().map(|path| output_of(path, b"")) {
        eprintln!("the program does not run: {error}");
        return ExitCode::from(2);
    }
    let well = match (options.forever, &options.case, options.only) {
        (true, _, _) => forever(options),
        (false, None, None) => once(&options),
        (false, _, index) => one_case(&options, index.unwrap_or(0)),
    };
    match well {
        true => ExitCode::SUCCESS,
        false => ExitCode::FAILURE,
    }
}

/// Whether a run over the cases of one seed showed no difference and missed nothing.
fn once(options: &Options) -> bool {
    println!("seed {}, {} cases", options.seed, options.cases);
    let start = Instant::now();
    let ran = run::run(options);
    let seconds = start.elapsed().as_secs_f64();
    let report = Report::on(&ran.coverage);
    for line in &report.lines {
        println!("{line}");
    }
    for missing in &report.missing {
        println!("MISSING {missing}");
    }
    let (seed, cases, differences) = (options.seed, ran.cases(), ran.differences);
    let (rate, missing) = (cases as f64 / seconds, report.missing.len());
    println!(
        "seed {seed}: {cases} cases, {seconds:.1} s, {rate:.0} cases/s, {differences} differences, {missing} missing"
    );
    differences == 0 && missing == 0
}

/// Compares on new seeds until there is a difference.
fn forever(mut options: Options) -> bool {
    let mut coverage = Coverage::new();
    options.cases = CASES_OF_A_SEED;
    loop {
        options.seed = seed_from_the_clock();
        println!("seed {}, {} cases", options.seed, options.cases);
        let ran = run::run(&options);
        coverage.add(&ran.coverage);
        println!("so far {}", tables::totals(&coverage));
        if ran.differences > 0 {
            return false;
        }
    }
}

/// Whether one case, the one given or the one of an index, shows no difference.
fn one_case(options: &Options, index: u64) -> bool {
    let case = match &options.case {
        Some(case) => case.clone(),
        None => cases::case_for(options.seed, index),
    };
    println!("--seed {} --only {index}", options.seed);
    println!("--case {}", wire::case_in_words(&case));
    let issued = second_opinion::second::verify(&case, &mut second_opinion::second::NoWatch);
    println!("verify: {issued:?}");
    let difference = run::run_case(options, index, &case, &mut Coverage::new());
    if difference.is_none() {
        println!("no difference");
    }
    difference.is_none()
}
