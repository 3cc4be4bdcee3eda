//! The clauses of the rules, by name, the ways in which an order comes out, and who may watch them being tried.

use crate::data::{Pair, Time};

/// One clause of one rule: a test that can hold or fail.
#[derive(Clone, Copy, Debug, PartialEq, Eq, PartialOrd, Ord, Hash)]
pub enum Clause {
    /// 20: whoever claims the assumption is at least as strong as the principal of the view.
    ClaimStrongEnough,
    /// 20: the claim's interval begins no later than the view's.
    ClaimFromViewsStart,
    /// 20: the view's interval ends no later than the claim's.
    ClaimToViewsEnd,
    /// 20: a plain assumption was made inside of the innermost says-in.
    PlainFromInside,
    /// 21: the certificate's principal is at least as strong as the principal of the view.
    CertificateStrongEnough,
    /// 21: the certificate's interval begins no later than the view's.
    CertificateFromViewsStart,
    /// 21: the view's interval ends no later than the certificate's.
    CertificateToViewsEnd,
    /// 23: a conjunction was inferred.
    FirstOfConjunction,
    /// 24: a conjunction was inferred.
    SecondOfConjunction,
    /// 26: an implication was inferred.
    ApplyImplication,
    /// 26: the step's first time is not before the inferred interval.
    ApplyNotBefore,
    /// 26: the step's second time is not after the inferred interval.
    ApplyNotAfter,
    /// 27: a for-all was inferred.
    InstanceForAll,
    /// 27: the term is of the sort that the for-all ranges over.
    InstanceSort,
    /// 22: the goal is a conjunction.
    PairGoal,
    /// 25: the goal is top.
    TopGoal,
    /// 28: the goal is a formula at an interval.
    AtInGoal,
    /// 29: a formula at an interval was inferred.
    AtOutInferred,
    /// 2A: in the goal a principal says something.
    SaysInGoal,
    /// 2B: in what was inferred a principal says something.
    SaysOutInferred,
    /// 2C: the goal is a state fact.
    StateGoal,
    /// 2C at the office: the fact is on the list now. This one never fails.
    FactListed,
    /// 2C at a press: the fact stands in the state.
    FactStands,
    /// 2D: the goal is an order of two times.
    OrderGoal,
    /// 2D: the goal's first time is not after its second.
    OrderHolds,
    /// 2E: the goal is an or.
    LeftGoal,
    /// 2F: the goal is an or.
    RightGoal,
    /// 30: an or was inferred.
    CasesInferred,
    /// 31: falsity was inferred.
    FalsityInferred,
    /// Comparing: both formulas begin with the same tag.
    SameKind,
    /// Comparing: both facts or atoms have the same predicate.
    SamePredicate,
    /// Comparing: both facts or atoms have equally many terms.
    SameCount,
    /// Comparing: two terms are both names, both times or both variables.
    SameSort,
    /// Comparing: two names are the same.
    SameName,
    /// Comparing: two variables have the same binder.
    SameVariable,
    /// Comparing: the inferred formula's time is not after the goal's.
    TimeNotAfter,
    /// Comparing: the goal's time is not after the inferred formula's.
    TimeNotBefore,
    /// Comparing: the inferred interval begins no later than the goal's.
    CoversBeginning,
    /// Comparing: the goal's interval ends no later than the inferred one.
    CoversEnd,
    /// After the walk at the office: some moment is left.
    MomentLeft,
}

impl Clause {
    /// Every clause there is.
    pub const ALL: &'static [Clause] = &[
        Clause::ClaimStrongEnough,
        Clause::ClaimFromViewsStart,
        Clause::ClaimToViewsEnd,
        Clause::PlainFromInside,
        Clause::CertificateStrongEnough,
        Clause::CertificateFromViewsStart,
        Clause::CertificateToViewsEnd,
        Clause::FirstOfConjunction,
        Clause::SecondOfConjunction,
        Clause::ApplyImplication,
        Clause::ApplyNotBefore,
        Clause::ApplyNotAfter,
        Clause::InstanceForAll,
        Clause::InstanceSort,
        Clause::PairGoal,
        Clause::TopGoal,
        Clause::AtInGoal,
        Clause::AtOutInferred,
        Clause::SaysInGoal,
        Clause::SaysOutInferred,
        Clause::StateGoal,
        Clause::FactListed,
        Clause::FactStands,
        Clause::OrderGoal,
        Clause::OrderHolds,
        Clause::LeftGoal,
        Clause::RightGoal,
        Clause::CasesInferred,
        Clause::FalsityInferred,
        Clause::SameKind,
        Clause::SamePredicate,
        Clause::SameCount,
        Clause::SameSort,
        Clause::SameName,
        Clause::SameVariable,
        Clause::TimeNotAfter,
        Clause::TimeNotBefore,
        Clause::CoversBeginning,
        Clause::CoversEnd,
        Clause::MomentLeft,
    ];
}

/// How "this time is not after that time" comes out in a walk.
#[derive(Clone, Copy, Debug, PartialEq, Eq)]
pub enum Verdict {
    /// It holds.
    Holds,
    /// It fails, and the walk ends.
    Fails,
    /// At the office: the press must not be before a moment.
    RaisesFrom,
    /// At the office: the press must not be after a moment.
    LowersTo,
}

impl Verdict {
    /// Every verdict there is.
    pub const ALL: [Verdict; 4] = [
        Verdict::Holds,
        Verdict::Fails,
        Verdict::RaisesFrom,
        Verdict::LowersTo,
    ];

    /// The verdict on an order that is decided.
    pub fn decided(held: bool) -> Verdict {
        if held {
            Verdict::Holds
        } else {
            Verdict::Fails
        }
    }
}

/// Watches a walk: which clauses were tried, which orders and which strengths asked, how they came out, which steps and
/// formulas were met.
pub trait Watch {
    /// A clause was tried, and held or not.
    fn clause(&mut self, _clause: Clause, _held: bool) {}
    /// A clause asked whether left is not after right, and this came out.
    fn order(&mut self, _clause: Clause, _left: Time, _right: Time, _verdict: Verdict) {}
    /// A clause asked whether the first of two principals is at least as strong as the second by these pairs.
    fn strength(&mut self, _clause: Clause, _pairs: &[Pair], _asked: (u16, u16), _held: bool) {}
    /// A step with this tag was walked.
    fn step(&mut self, _tag: u8) {}
    /// A formula with this tag was read from a certificate.
    fn formula(&mut self, _tag: u8) {}
}

/// Watches nothing.
pub struct NoWatch;

impl Watch for NoWatch {}
