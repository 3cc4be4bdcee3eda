//! Small cases about one view: words that are used in it on one span, for a goal on another.

use super::clock::{Clock, Span};
use super::damage::another_name;
use super::formula::Formula;
use super::limits::{always, case, some_request};
use super::office::Certificate;
use super::rule::{asking, granted};
use super::step::Step;
use super::tags;
use super::word::Word;
use super::Random;
use crate::data::{Case, Pair};

/// Words used in a view: who has the view and on which span, on which span the goal is there, who speaks and on which
/// span the words hold, and who stands above whom.
pub struct Use {
    clock: Clock,
    pub viewer: u16,
    view: Span,
    goal: Span,
    pub speaker: u16,
    words: Span,
    pub pairs: Vec<Pair>,
}

/// A case where words are used in a view as they may be.
pub fn well_used(random: &mut Random) -> Case {
    let used = Use::some(random);
    used.case(random)
}

/// A case where words are used in a view, and mostly as they may not be: not on all of the view's span, or by another.
pub fn in_a_view(random: &mut Random) -> Case {
    let mut used = Use::some(random);
    used.move_words(random);
    if random.one_in(4) {
        used.speaker = another_name(random, used.speaker);
    }
    used.case(random)
}

impl Use {
    /// Words that may be used: by whoever has the view, on a span around the view's and the goal's.
    pub fn some(random: &mut Random) -> Use {
        let clock = Clock::new(random);
        let [view, goal] = [(); 2].map(|_| clock.any_span(random));
        let viewer = *random.pick(&[1, 2, 7]);
        Use {
            viewer,
            view,
            goal,
            speaker: viewer,
            words: clock.around(random, clock.around_both(view, goal)),
            clock,
            pairs: Vec::new(),
        }
    }

    /// Lets the words hold on another span, mostly not on all of the view's.
    pub fn move_words(&mut self, random: &mut Random) {
        match random.below(6) {
            0..=2 => self.words = self.clock.around(random, self.goal),
            3 => self.words.from = self.clock.any(random, 1),
            4 => self.words.to = self.clock.any(random, 1),
            _ => {}
        }
    }

    /// The case where the words are a certificate, a claim from outside of the view or from inside, or seldom an
    /// assumption that is nobody's.
    pub fn case(&self, random: &mut Random) -> Case {
        match random.below(7) {
            0..=1 => self.certified(random),
            2..=3 => self.claimed_outside(random),
            4..=5 => self.claimed_inside(random),
            _ => self.plain(random),
        }
    }

    /// The words are a certificate.
    fn certified(&self, random: &mut Random) -> Case {
        let certificate = Certificate {
            principal: self.speaker,
            span: self.clock.fixed_span(self.words),
            formula: said(),
        };
        let inside = self.viewed(Step::over(tags::AT_IN, vec![Step::certificate(1)]));
        self.around(random, certificate, inside, |step| step)
    }

    /// The words are a claim that was made at the press, where the administrator has the view.
    fn claimed_outside(&self, random: &mut Random) -> Case {
        let local = Step::named(tags::LOCAL, 0);
        let inside = self.viewed(Step::over(tags::AT_IN, vec![local]));
        let claim = |step| Step::over(tags::SAYS_OUT, vec![self.claim(), step]);
        self.around(random, always(self.claimed()), inside, claim)
    }

    /// The words are a claim that was made in the view.
    fn claimed_inside(&self, random: &mut Random) -> Case {
        let mut certificate = always(self.claimed());
        certificate.principal = self.viewer;
        let shown = Step::over(tags::AT_IN, vec![Step::named(tags::LOCAL, 0)]);
        let inside = Step::over(tags::SAYS_OUT, vec![self.claim(), shown]);
        self.around(random, certificate, self.viewed(inside), |step| step)
    }

    /// The words are an assumption that is nobody's.
    fn plain(&self, random: &mut Random) -> Case {
        let span = self.clock.fixed_span(self.words);
        let mut certificate = always(Formula::at_span(span, said()));
        certificate.principal = self.viewer;
        let shown = Step::over(tags::AT_IN, vec![Step::named(tags::LOCAL, 0)]);
        let inside = Step::over(tags::AT_OUT, vec![Step::certificate(1), shown]);
        self.around(random, certificate, self.viewed(inside), |step| step)
    }

    /// That the speaker says the words, if top is shown.
    fn claimed(&self) -> Formula {
        let says = Formula::says(Word::name(self.speaker), said());
        Formula::implies(Formula::top(), says)
    }

    /// A step that infers on the words' span that the speaker says them.
    fn claim(&self) -> Step {
        let shown = Step::leaf(tags::TRIVIAL);
        let Span { from, to } = self.words;
        Step::apply(Step::certificate(1), shown, from, to)
    }

    /// A step that enters the view, and what it checks inside.
    fn viewed(&self, inside: Step) -> Step {
        let says_in = Step::over(tags::SAYS_IN, vec![inside]);
        Step::over(tags::AT_IN, vec![says_in])
    }

    /// The case with a certificate for the words, and a rule of the administrator that asks what the viewer says.
    fn around(
        &self,
        random: &mut Random,
        certificate: Certificate,
        shown: Step,
        claim: impl Fn(Step) -> Step,
    ) -> Case {
        let request = some_request(random);
        let viewed = Formula::says(Word::name(self.viewer), Formula::at_span(self.goal, said()));
        let rule = asking(request, Formula::at_span(self.view, viewed));
        Case {
            pairs: self.pairs.clone(),
            ..case(request, &[rule, certificate], claim(granted(shown)))
        }
    }
}

/// What is said.
pub fn said() -> Formula {
    Formula::atom(300, vec![])
}
