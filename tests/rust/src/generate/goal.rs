//! What is to be shown, and what was inferred.

use super::clock::Span;
use super::formula::Formula;
use super::step::Step;

/// In whose view something is to be shown, and on which span: what is used there is the principal's, or of one who
/// stands above it, and covers the span.
#[derive(Clone, Copy, Debug, PartialEq, Eq)]
pub struct View {
    pub principal: u16,
    pub span: Span,
}

/// What is to be checked: a formula on a span in a view, in at most so many levels.
#[derive(Clone, Debug)]
pub struct Goal {
    pub formula: Formula,
    pub span: Span,
    pub view: View,
    pub levels: usize,
}

/// A step that infers, and the span that it infers on.
pub struct Inferred {
    pub step: Step,
    pub span: Span,
}

impl Goal {
    /// The same view with one level less, for another formula and span.
    pub fn under(&self, formula: &Formula, span: Span) -> Goal {
        Goal {
            formula: formula.clone(),
            span,
            view: self.view,
            levels: self.levels - 1,
        }
    }

    /// What is to be shown inside, in a view on the goal's span, if the goal is what somebody says.
    pub fn inside_of_says(&self) -> Option<Goal> {
        let principal = self.formula.words.first()?.as_name()?;
        let span = self.span;
        Some(Goal {
            view: View { principal, span },
            ..self.under(self.formula.parts.first()?, span)
        })
    }

    /// The same goal for another formula.
    pub fn with(&self, formula: Formula) -> Goal {
        Goal {
            formula,
            ..self.clone()
        }
    }
}

/// A step over two others, if they could be made.
pub fn pair(tag: u8, first: Option<Step>, second: Option<Step>) -> Option<Step> {
    Some(Step::over(tag, vec![first?, second?]))
}
