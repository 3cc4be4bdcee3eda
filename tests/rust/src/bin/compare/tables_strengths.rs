//! The table of strengths at the end of a run: how it came out in steps 20 and 21 that a principal is at least as
//! strong as the one who has the view.

use crate::coverage::{Coverage, Walked};
use crate::strengths::Way;
use crate::tables::Report;
use second_opinion::second::Clause;

/// The clauses that ask for a strength, with their step.
const ASKING: [(Clause, &str); 2] = [
    (Clause::ClaimStrongEnough, "20"),
    (Clause::CertificateStrongEnough, "21"),
];

impl Report {
    /// How strengths came out in verify and in the direct check.
    pub fn all_strengths(&mut self, coverage: &Coverage) {
        self.strengths("verify", &coverage.verify);
        self.strengths("direct", &coverage.direct);
    }

    /// How often strengths came out in each way in one call; each must have, in each step that asks.
    fn strengths(&mut self, name: &str, walked: &Walked) {
        let [(_, first), (_, second)] = ASKING;
        let heading = format!("{name}, strengths");
        self.line(format!("{heading:<28}{first:>12}{second:>12}"));
        for way in Way::ALL {
            let mut line = format!("  {:<26}", format!("{way:?}"));
            for (clause, step) in ASKING {
                let count = walked.strengths.get(&(clause, way)).copied().unwrap_or(0);
                self.expect(true, count, || {
                    format!("{name}: strength in {step} {way:?}")
                });
                line += &format!("{count:>12}");
            }
            self.line(line);
        }
    }
}
