//! The tables at the end of a run, and what is missing in them.

use crate::coverage::{Call, Coverage, Walked};
use crate::questions::pairs;
use crate::questions::presses::DEMAND_3_WHERE;
use crate::questions::text::DEMAND_2_OF_A_TEXT;
use crate::questions::values::DEMAND_2_OF_A_VALUE;
use second_opinion::second::Clause;
use std::collections::BTreeMap;

/// The answers that a call gives; any other never comes. 6 is no answer of any: the number is withdrawn.
const ANSWERS: [(Call, &[u64]); 7] = [
    (Call::Verify, &[0, 1, 2, 3, 4, 5, 13, 21]),
    (Call::Direct, &[0, 1, 2, 3, 4, 7, 10, 11, 21]),
    (Call::DoorOnText, &[0, 7, 8, 9, 10, 11, 12]),
    (Call::DoorOnValue, &[0, 7, 8, 9, 10, 11, 12]),
    (Call::Rewrite, &[0, 12, 13]),
    (Call::Write, &[0, 12, 13]),
    (Call::Program, &[0, 1, 2, 3, 4, 5, 14]),
];

/// The numbers that are looked for among the answers: all there are, and those that later requests may add.
const NUMBERS: std::ops::RangeInclusive<u64> = 0..=31;

/// The lines at which a malformed input must have been refused, 0 standing for one that is too long.
const LINES: std::ops::RangeInclusive<u64> = 0..=12;

/// How many facts an issued procap may list; each number must have come, so that the list was full.
const FACTS: std::ops::RangeInclusive<u64> = 0..=16;

/// Whether verify can have a clause come out this way.
fn possible_in_verify(clause: Clause, held: bool) -> bool {
    match clause {
        // Verify asks no state.
        Clause::FactStands => false,
        // A fact that is met is listed.
        Clause::FactListed => held,
        _ => true,
    }
}

/// Whether the direct check can have a clause come out this way.
fn possible_in_direct(clause: Clause, _held: bool) -> bool {
    match clause {
        // The direct check keeps no list, and no interval either.
        Clause::FactListed | Clause::MomentLeft => false,
        _ => true,
    }
}

/// How often each question was asked, on one line.
pub fn totals(coverage: &Coverage) -> String {
    let asked = coverage.asked.iter();
    let words: Vec<String> = asked
        .map(|(name, count)| format!("{name}: {count}"))
        .collect();
    words.join(", ")
}

/// A count in a table, or that there can be nothing to count.
pub fn shown(possible: bool, count: u64) -> String {
    match possible {
        true => count.to_string(),
        false => "cannot".to_string(),
    }
}

/// The report of a run: its tables, and what is missing in them.
pub struct Report {
    pub lines: Vec<String>,
    pub missing: Vec<String>,
}

impl Report {
    /// The report on what came up.
    pub fn on(coverage: &Coverage) -> Report {
        let mut report = Report {
            lines: Vec::new(),
            missing: Vec::new(),
        };
        report.questions(coverage);
        report.demands(coverage);
        report.pairs(coverage);
        report.answers(coverage);
        report.input_lines(coverage);
        report.facts(coverage);
        report.tags("verify, steps", &coverage.verify.steps, 0x20..=0x31);
        report.tags("direct, steps", &coverage.direct.steps, 0x20..=0x31);
        report.tags("verify, formulas", &coverage.verify.formulas, 0x10..=0x1b);
        report.tags("direct, formulas", &coverage.direct.formulas, 0x10..=0x1b);
        report.clauses("verify", &coverage.verify, possible_in_verify);
        report.clauses("direct", &coverage.direct, possible_in_direct);
        report.all_orders(coverage);
        report.all_strengths(coverage);
        report
    }

    /// Adds a line.
    pub fn line(&mut self, line: String) {
        self.lines.push(line);
    }

    /// Sees to it that what should come up has, and that what never should has not.
    pub fn expect(&mut self, expected: bool, count: u64, what: impl Fn() -> String) {
        if expected && count == 0 {
            self.missing.push(format!("never came: {}", what()));
        }
        if !expected && count > 0 {
            self.missing
                .push(format!("cannot be, but came: {}", what()));
        }
    }

    /// How often each question was asked.
    fn questions(&mut self, coverage: &Coverage) {
        self.line("questions".to_string());
        for (name, count) in &coverage.asked {
            self.line(format!("  {name:<44}{count:>12}"));
        }
    }

    /// Each demand must have been asked, demand 3 wherever it can come out in another way.
    fn demands(&mut self, coverage: &Coverage) {
        let demands_2 = [DEMAND_2_OF_A_TEXT, DEMAND_2_OF_A_VALUE];
        for name in DEMAND_3_WHERE.iter().chain(&demands_2) {
            let count = coverage.asked.get(name).copied().unwrap_or(0);
            self.expect(true, count, || name.to_string());
        }
    }

    /// Lists of pairs of every kind must have been asked about.
    fn pairs(&mut self, coverage: &Coverage) {
        for name in pairs::WHERE {
            let count = coverage.asked.get(name).copied().unwrap_or(0);
            self.expect(true, count, || name.to_string());
        }
    }

    /// How often each call gave each answer.
    fn answers(&mut self, coverage: &Coverage) {
        self.line("answers".to_string());
        for (call, numbers) in ANSWERS {
            let mut line = format!("  {:<12}", format!("{call:?}"));
            for number in NUMBERS {
                let count = coverage.answers.get(&(call, number)).copied();
                let count = count.unwrap_or(0);
                let name = || format!("{call:?} answers {number}");
                self.expect(numbers.contains(&number), count, name);
                if numbers.contains(&number) || count > 0 {
                    line += &format!("  {number}: {count}");
                }
            }
            self.line(line);
        }
        self.line("  6 is withdrawn, and expected never".to_string());
    }

    /// At which lines malformed inputs were refused.
    fn input_lines(&mut self, coverage: &Coverage) {
        let counted = self.each_of(LINES, &coverage.lines, "14 at place");
        let last = coverage.lines.keys().last().copied().unwrap_or(0);
        self.line(format!("  14 at line{counted}  ... the last: {last}"));
    }

    /// How many facts the issued procaps list.
    fn facts(&mut self, coverage: &Coverage) {
        let counted = self.each_of(FACTS, &coverage.facts, "facts in a procap:");
        self.line(format!("facts listed{counted}"));
        let beyond = coverage.facts.keys().any(|number| !FACTS.contains(number));
        let more = || "a procap with more than 16 facts".to_string();
        self.expect(false, u64::from(beyond), more);
    }

    /// How often each number of a range came up, as part of a line; each must have.
    fn each_of(
        &mut self,
        numbers: std::ops::RangeInclusive<u64>,
        counts: &BTreeMap<u64, u64>,
        what: &str,
    ) -> String {
        let mut line = String::new();
        for number in numbers {
            let count = counts.get(&number).copied().unwrap_or(0);
            self.expect(true, count, || format!("{what} {number}"));
            line += &format!("  {number}: {count}");
        }
        line
    }

    /// How often each tag of a range came up.
    fn tags(&mut self, name: &str, counts: &[u64], tags: std::ops::RangeInclusive<u8>) {
        let mut line = format!("{name}\n ");
        for tag in tags {
            let count = counts[usize::from(tag)];
            self.expect(true, count, || format!("{name}: {tag:02x}"));
            line += &format!("  {tag:02x}: {count}");
        }
        self.line(line);
    }

    /// How often each clause held and failed in one call.
    fn clauses(&mut self, name: &str, walked: &Walked, possible: fn(Clause, bool) -> bool) {
        self.line(format!(
            "{:<28}{:>12}{:>12}",
            format!("{name}, clauses"),
            "held",
            "failed"
        ));
        for clause in Clause::ALL {
            let [failed, held] = walked.clauses[*clause as usize];
            for (came_out, count) in [(true, held), (false, failed)] {
                let way = if came_out { "holds" } else { "fails" };
                let about = || format!("{name}: {clause:?} {way}");
                self.expect(possible(*clause, came_out), count, about);
            }
            let shown = |came_out, count| shown(possible(*clause, came_out), count);
            let (held, failed) = (shown(true, held), shown(false, failed));
            self.line(format!(
                "  {:<26}{held:>12}{failed:>12}",
                format!("{clause:?}")
            ));
        }
    }
}
