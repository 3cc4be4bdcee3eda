//! The tables of orders at the end of a run: between which kinds of times, and how they came out.

use crate::coverage::{Coverage, Kind, Walked};
use crate::tables::{shown, Report};
use second_opinion::second::{Clause, Verdict};

/// The clauses that ask for an order of times.
const ASKING: [Clause; 11] = [
    Clause::ClaimFromViewsStart,
    Clause::ClaimToViewsEnd,
    Clause::CertificateFromViewsStart,
    Clause::CertificateToViewsEnd,
    Clause::ApplyNotBefore,
    Clause::ApplyNotAfter,
    Clause::OrderHolds,
    Clause::TimeNotAfter,
    Clause::TimeNotBefore,
    Clause::CoversBeginning,
    Clause::CoversEnd,
];

/// Whether an order of times of two kinds can come out this way.
type Possible = fn(Kind, Kind, Verdict) -> bool;

/// Whether verify can have an order of times of two kinds come out this way.
fn possible_in_verify(left: Kind, right: Kind, verdict: Verdict) -> bool {
    match (left, right) {
        // An infinity settles it.
        (Kind::MinusInfinity, _) | (_, Kind::PlusInfinity) => verdict == Verdict::Holds,
        (Kind::PlusInfinity, _) | (_, Kind::MinusInfinity) => verdict == Verdict::Fails,
        // Without ctime it is decided at once.
        (Kind::Moment, Kind::Moment) => matches!(verdict, Verdict::Holds | Verdict::Fails),
        // Ctime <= ctime holds.
        (Kind::Ctime, Kind::Ctime) => verdict == Verdict::Holds,
        // Otherwise it raises the procap's "from" or lowers its "to".
        (Kind::Moment, Kind::Ctime) => verdict == Verdict::RaisesFrom,
        (Kind::Ctime, Kind::Moment) => verdict == Verdict::LowersTo,
    }
}

/// Whether the direct check can have an order of times of two kinds come out this way.
fn possible_in_direct(left: Kind, right: Kind, verdict: Verdict) -> bool {
    match (left, right) {
        // Ctime is read as the given moment, and the order of two moments is decided.
        (Kind::Moment, Kind::Ctime) | (Kind::Ctime, Kind::Moment) => {
            matches!(verdict, Verdict::Holds | Verdict::Fails)
        }
        _ => possible_in_verify(left, right, verdict),
    }
}

/// Whether verify can have an order that a clause asks for come out this way.
fn possible_of_clause(clause: Clause, verdict: Verdict) -> bool {
    match (clause, verdict) {
        // A certificate's own times are never ctime, so the press comes in on the view's side alone.
        (Clause::CertificateFromViewsStart, Verdict::LowersTo) => false,
        (Clause::CertificateToViewsEnd, Verdict::RaisesFrom) => false,
        _ => ASKING.contains(&clause),
    }
}

/// A verdict in words.
fn in_words(verdict: Verdict) -> &'static str {
    match verdict {
        Verdict::Holds => "holds",
        Verdict::Fails => "fails",
        Verdict::RaisesFrom => "raises from",
        Verdict::LowersTo => "lowers to",
    }
}

/// The heading of a table with columns for the verdicts given.
fn heading(name: &str, columns: &[Verdict]) -> String {
    let mut heading = format!("{name:<32}");
    for verdict in columns {
        heading += &format!("{:>12}", in_words(*verdict));
    }
    heading
}

impl Report {
    /// How orders of times came out in verify and in the direct check.
    pub fn all_orders(&mut self, coverage: &Coverage) {
        let (office, press) = (&Verdict::ALL, &[Verdict::Holds, Verdict::Fails]);
        self.orders("verify", &coverage.verify, office, possible_in_verify);
        self.orders("direct", &coverage.direct, press, possible_in_direct);
        self.orders_of_clauses(&coverage.verify);
    }

    /// How often the orders that each clause asks for came out in each way in verify; the direct check decides them
    /// all, which its clauses show.
    fn orders_of_clauses(&mut self, walked: &Walked) {
        self.line(heading("verify, orders by clause", &Verdict::ALL));
        for clause in Clause::ALL {
            let counts = walked.orders_of[*clause as usize];
            let mut line = format!("  {:<30}", format!("{clause:?}"));
            for (verdict, count) in Verdict::ALL.into_iter().zip(counts) {
                let expected = possible_of_clause(*clause, verdict);
                let about = || format!("verify: {clause:?} {}", in_words(verdict));
                self.expect(expected, count, about);
                line += &format!("{:>12}", shown(expected, count));
            }
            if ASKING.contains(clause) {
                self.line(line);
            }
        }
    }

    /// How often orders of each two kinds came out in each way in one call, with columns for the verdicts given.
    fn orders(&mut self, name: &str, walked: &Walked, columns: &[Verdict], possible: Possible) {
        self.line(heading(&format!("{name}, orders"), columns));
        for left in Kind::ALL {
            for right in Kind::ALL {
                let order = format!("{left:?} <= {right:?}");
                let counts = walked.orders[left as usize][right as usize];
                let mut line = format!("  {order:<30}");
                for (verdict, count) in Verdict::ALL.into_iter().zip(counts) {
                    let expected = possible(left, right, verdict);
                    let about = || format!("{name}: {order} {}", in_words(verdict));
                    self.expect(expected, count, about);
                    if columns.contains(&verdict) {
                        line += &format!("{:>12}", shown(expected, count));
                    }
                }
                self.line(line);
            }
        }
    }
}
