//! Certificates that the administrator passes on: what they say comes into a proof as a claim.

use super::clock::Span;
use super::formula::Formula;
use super::office::Office;
use super::step::Step;
use super::tags;
use super::valid::ADMINISTRATOR;
use super::word::Word;

impl Office<'_> {
    /// The proof, a says-in, with a few of its certificates passed on, where that can be.
    pub fn passed_on(&mut self, mut proof: Step) -> Step {
        for _ in 0..=self.random.below(3) {
            let number = self.random.below(self.policy.len().max(1) as u64) as usize;
            if let Some(other) = self.with_claim(&proof, number) {
                proof = other;
            }
        }
        proof
    }

    /// The proof with a claim for the certificate of a number, if it uses that one and has room for the claim.
    fn with_claim(&mut self, proof: &Step, number: usize) -> Option<Step> {
        let mut inside = proof.parts.first()?.clone();
        if proof.levels() > 31 || !self.claim_used(&mut inside, number) {
            return None;
        }
        let first = self.claim_of(number)?;
        let around = Step::over(tags::SAYS_OUT, vec![first, inside]);
        Some(Step::over(tags::SAYS_IN, vec![around]))
    }

    /// Whether the certificate of a number is used in a step; mostly, an assumption outside of the step is used instead.
    fn claim_used(&mut self, inside: &mut Step, number: usize) -> bool {
        let mut used = false;
        for n in 0..inside.count() {
            let (step, around) = inside.nth(n);
            let named = *step == Step::certificate(number);
            if named && !self.random.one_in(5) {
                *step = Step::named(tags::LOCAL, around);
                used = true;
            }
        }
        used
    }

    /// A step by which the administrator says at the press what the certificate of a number says: on a span around its
    /// own, or on just that by an implication.
    fn claim_of(&mut self, number: usize) -> Option<Step> {
        let passed = self.policy[number].clone();
        let said = Formula::says(Word::name(passed.principal), passed.formula);
        if self.random.one_in(3) {
            let span = self.clock.around_both(passed.span, Span::PRESS);
            return self.told(said, span);
        }
        let first = self.told(Formula::implies(Formula::top(), said), Span::ALWAYS)?;
        let shown = Step::leaf(tags::TRIVIAL);
        Some(Step::apply(first, shown, passed.span.from, passed.span.to))
    }

    /// A step that names a new certificate of the administrator around a span, if there is room for it.
    fn told(&mut self, formula: Formula, around: Span) -> Option<Step> {
        let told = self.certified(ADMINISTRATOR, around, formula)?;
        Some(told.step)
    }
}
