//! The rule of the administrator in cases made on purpose: it grants the request if something is shown at the press.

use super::formula::Formula;
use super::limits::always;
use super::office::Certificate;
use super::step::Step;
use super::valid::may;
use super::word::Sort;
use crate::data::{Request, Term, Time};

/// Ctime as a term.
const CTIME: Term = Term::When(Time::Ctime);

/// The certificate of the rule that asks for a formula, whose ctime comes in by an instance.
pub fn asking(request: Request, asked: Formula) -> Certificate {
    let rule = Formula::implies(asked, may(request));
    always(rule.abstracted(CTIME, Sort::Time, &mut || true))
}

/// The rule applied at the press to what is shown, as the first certificate.
pub fn granted(shown: Step) -> Step {
    let rule = Step::instance(CTIME, Step::certificate(0));
    Step::apply(rule, shown, Time::Ctime, Time::Ctime)
}
