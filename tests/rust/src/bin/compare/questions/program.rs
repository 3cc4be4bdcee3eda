//! The program `check`: what it prints for an input.

use crate::archive;
use crate::asking::Asking;
use crate::coverage::Call;
use crate::difference::{same, Outcome};
use crate::lent::written;
use crate::wire::hex;
use second_opinion::generate::{damaged_bytes, input_of, Random};
use second_opinion::second;
use std::io::{Error, ErrorKind, Write};
use std::path::Path;
use std::process::{Command, Stdio};

/// How long an input can be.
const MOST_BYTES: usize = 65_536;

/// Asks about the case as an input, and about damaged inputs.
pub fn ask(asking: &mut Asking) -> Outcome {
    let Some(input) = input_of(asking.case) else {
        return Ok(());
    };
    one_input(asking, &input)?;
    let mut other = damaged_bytes(&mut asking.random, &input);
    if asking.random.one_in(4) {
        other = damaged_bytes(&mut asking.random, &other);
    }
    one_input(asking, &other)?;
    match asking.random.below(200) {
        0 => other = lengthened(&mut asking.random, input),
        1..=4 => other = regrouped(&mut asking.random, &input),
        _ => return Ok(()),
    }
    one_input(asking, &other)
}

/// The input with its first group as often as makes up some count close to the most, or to none.
fn regrouped(random: &mut Random, input: &[u8]) -> Vec<u8> {
    let lines: Vec<&[u8]> = input.split_inclusive(|byte| *byte == b'\n').collect();
    let (Some(request), Some(group), Some(proof)) = (lines.get(..3), lines.get(4..8), lines.last())
    else {
        return input.to_vec();
    };
    let count = *random.pick(&[0, 31, 32, 33, 34]);
    let said = *random.pick(&[count, count, count, 32, 33]);
    let mut other = request.concat();
    other.extend(format!("certs={said}\n").into_bytes());
    (0..count).for_each(|_| other.extend(group.concat()));
    other.extend(*proof);
    other
}

/// The input with its last line longer, up to the most that an input may have, or a byte less or more.
fn lengthened(random: &mut Random, mut input: Vec<u8>) -> Vec<u8> {
    let length = MOST_BYTES - 1 + random.below(3) as usize;
    input.pop();
    input.resize(length - 1, b'2');
    input.push(b'\n');
    input
}

/// Asks about one input.
fn one_input(asking: &mut Asking, input: &[u8]) -> Outcome {
    let printed = second::printed(input);
    note(asking, &printed);
    written(
        &mut asking.random,
        &Ok(printed.clone()),
        |out| archive::answer_case(input, out),
        || format!("printed for input {}", hex(input)),
    )?;
    asking.coverage.asked("input of the program");
    let options = asking.options;
    match &options.program {
        Some(path) if asking.index.is_multiple_of(options.every) => {
            run(asking, path, input, &printed)
        }
        _ => Ok(()),
    }
}

/// Counts what was printed.
fn note(asking: &mut Asking, printed: &[u8]) {
    let words = String::from_utf8_lossy(printed);
    let after = |label: &str| {
        let line = words.lines().find_map(|line| line.strip_prefix(label));
        line.and_then(|number| number.parse::<u64>().ok())
    };
    let number = after("refused=").unwrap_or(0);
    asking.coverage.answered(Call::Program, number);
    if number == 14 {
        asking.coverage.line(after("place=").unwrap_or(u64::MAX));
    }
}

/// Asks the program itself.
fn run(asking: &mut Asking, path: &Path, input: &[u8], wanted: &[u8]) -> Outcome {
    asking.coverage.asked("run of the program");
    let right = Ok(String::from_utf8_lossy(wanted).into_owned());
    let found = output_of(path, input).map_err(|error| error.to_string());
    same(&right, &found, || {
        format!("standard output of the program for input {}", hex(input))
    })
}

/// What the program writes to its standard output for an input.
pub fn output_of(path: &Path, input: &[u8]) -> Result<String, Error> {
    let mut child = Command::new(path)
        .stdin(Stdio::piped())
        .stdout(Stdio::piped())
        .spawn()?;
    if let Some(mut lines) = child.stdin.take() {
        // The program may stop reading once the input is too long.
        let told = lines.write_all(input);
        told.or_else(|error| match error.kind() {
            ErrorKind::BrokenPipe => Ok(()),
            _ => Err(error),
        })?;
    }
    let output = child.wait_with_output()?;
    Ok(String::from_utf8_lossy(&output.stdout).into_owned())
}
