//! Small cases about one or: a goal is shown by cases, from each side of the or in some way.

use super::clock::{Clock, Span};
use super::formula::Formula;
use super::limits::{always, case, some_request};
use super::rule::{asking, granted};
use super::step::Step;
use super::tags;
use super::valid::ADMINISTRATOR;
use super::word::Word;
use super::Random;
use crate::data::Case;

/// The certificates behind the rule: of the or, of the goal for one fact and for another, and of the goal for an atom.
const EITHER: usize = 1;
const FOR_FACTS: [usize; 2] = [2, 3];
const FOR_ATOM: usize = 4;

/// Where somebody's view is entered: not at all, around the cases, or in each of them.
#[derive(Clone, Copy, PartialEq, Eq)]
pub enum Viewed {
    Nowhere,
    Around,
    Within,
}

/// A side of an or, and the step that shows the goal from it.
pub struct Side {
    pub formula: Formula,
    pub shown: Step,
}

/// A goal shown by cases: where it is to be shown, where the or holds, and the or's sides.
pub struct Split {
    pub clock: Clock,
    pub goal: Formula,
    pub span: Span,
    pub or: Span,
    pub sides: [Side; 2],
    pub viewed: Viewed,
}

/// A case that is shown by cases or, seldom, from falsity.
pub fn by_an_or(random: &mut Random) -> Case {
    let split = Split::some(random);
    if random.one_in(8) {
        return split.case(random, Formula::falsity(), split.by_falsity());
    }
    split.case(random, split.either(), split.by_cases())
}

/// The latest assumption.
pub fn latest() -> Step {
    Step::named(tags::LOCAL, 0)
}

/// An atom that stands for one thing or another.
pub fn atom(number: u16) -> Formula {
    Formula::atom(300 + number, vec![])
}

/// A goal: an atom, an or or a conjunction that it is a side of, or one that stands for itself.
fn some_goal(random: &mut Random) -> Formula {
    match random.below(7) {
        0..=1 => atom(0),
        2 => Formula::either(atom(0), atom(1)),
        3 => Formula::either(atom(1), atom(0)),
        4 => Formula::both(atom(0), atom(1)),
        5 => Formula::falsity(),
        _ => Formula::top(),
    }
}

/// A side of an or from which the goal can be shown on a span.
fn some_side(random: &mut Random, goal: &Formula, span: Span) -> Side {
    let absurd = Step::over(tags::BY_FALSITY, vec![latest()]);
    let applied = |number, shown| {
        let rule = Step::certificate(number);
        Step::apply(rule, shown, span.from, span.to)
    };
    let (formula, shown) = match random.below(8) {
        0 => (Formula::falsity(), absurd),
        1 => {
            let first = Step::over(tags::FIRST, vec![latest()]);
            (Formula::both(goal.clone(), Formula::top()), first)
        }
        2 => (atom(2), applied(FOR_ATOM, latest())),
        3..=4 => {
            let number = *random.pick(&FOR_FACTS);
            (Formula::top(), applied(number, Step::leaf(tags::STATE)))
        }
        5 => {
            let again = Step::over(tags::CASES, vec![latest(), latest(), absurd]);
            (Formula::either(goal.clone(), Formula::falsity()), again)
        }
        6..=7 if goal.parts.len() == 2 => by_its_parts(random, goal),
        _ => (goal.clone(), latest()),
    };
    Side { formula, shown }
}

/// A side of an or, and the step that shows from it the parts that the goal wants: one of an or, both of a conjunction.
fn by_its_parts(random: &mut Random, goal: &Formula) -> (Formula, Step) {
    let over_latest = |tag| Step::over(tag, vec![latest()]);
    if goal.tag == tags::BOTH {
        let parts = [tags::FIRST, tags::SECOND].map(over_latest);
        return (goal.clone(), Step::over(tags::PAIR, parts.to_vec()));
    }
    let side = random.below(2) as usize;
    let tag = [tags::LEFT, tags::RIGHT][side];
    (goal.parts[side].clone(), over_latest(tag))
}

impl Split {
    /// A goal that the cases show.
    pub fn some(random: &mut Random) -> Split {
        let clock = Clock::new(random);
        let span = clock.any_span(random);
        let goal = some_goal(random);
        Split {
            or: clock.around(random, span),
            clock,
            sides: [(); 2].map(|_| some_side(random, &goal, span)),
            goal,
            span,
            viewed: *random.pick(&[Viewed::Nowhere, Viewed::Around]),
        }
    }

    /// The or of both sides.
    pub fn either(&self) -> Formula {
        let [left, right] = &self.sides;
        Formula::either(left.formula.clone(), right.formula.clone())
    }

    /// The step that infers the or, where it holds.
    pub fn first(&self) -> Step {
        let Span { from, to } = self.or;
        Step::apply(
            Step::certificate(EITHER),
            Step::leaf(tags::TRIVIAL),
            from,
            to,
        )
    }

    /// The goal shown by cases.
    pub fn by_cases(&self) -> Step {
        let [left, right] = &self.sides;
        let within = |side: &Side| self.entered(Viewed::Within, side.shown.clone());
        let cases = Step::over(tags::CASES, vec![self.first(), within(left), within(right)]);
        self.entered(Viewed::Around, cases)
    }

    /// The goal shown by what is inferred in place of the or.
    pub fn at_once(&self) -> Step {
        self.entered(Viewed::Around, self.first())
    }

    /// The goal shown from falsity.
    pub fn by_falsity(&self) -> Step {
        let absurd = Step::over(tags::BY_FALSITY, vec![self.first()]);
        self.entered(Viewed::Around, absurd)
    }

    /// The step, in a view if the view is entered there.
    fn entered(&self, here: Viewed, step: Step) -> Step {
        match self.viewed == here {
            true => Step::over(tags::SAYS_IN, vec![step]),
            false => step,
        }
    }

    /// The case with this shown for the goal, where this can be inferred in place of the or.
    pub fn case(&self, random: &mut Random, inferred: Formula, shown: Step) -> Case {
        let request = some_request(random);
        let goal = match self.viewed {
            Viewed::Nowhere => self.goal.clone(),
            _ => Formula::says(Word::name(ADMINISTRATOR), self.goal.clone()),
        };
        let for_goal = |asked| always(Formula::implies(asked, self.goal.clone()));
        let fact = |number| Formula::fact(200, vec![Word::name(number)]);
        let policy = [
            asking(request, Formula::at_span(self.span, goal)),
            always(Formula::implies(Formula::top(), inferred)),
            for_goal(fact(0)),
            for_goal(fact(1)),
            for_goal(atom(2)),
        ];
        let shown = Step::over(tags::AT_IN, vec![shown]);
        case(request, &policy, granted(shown))
    }
}
