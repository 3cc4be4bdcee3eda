//! Views, and whose words can be used in them.

use super::clauses::{Clause, Watch};
use super::reading::Reading;
use super::times::Interval;
use super::trying::Trial;
use crate::data::Answer;

/// Who views, and on which interval.
#[derive(Clone, Copy)]
pub struct Viewer {
    pub principal: u16,
    pub interval: Interval,
}

/// In whose view a goal is checked, if in anybody's, and how many assumptions were made outside of that view.
#[derive(Clone, Copy)]
pub struct View {
    pub viewer: Option<Viewer>,
    pub outside: usize,
}

/// What somebody's words must pass before they are used, in this order.
pub struct Words {
    /// Whoever they are from is at least as strong as the principal of the view.
    strong_enough: Clause,
    /// They hold from the view's start at the latest.
    from_views_start: Clause,
    /// They hold to the view's end at least.
    to_views_end: Clause,
}

impl Words {
    /// What a claim must pass.
    pub const OF_A_CLAIM: Words = Words {
        strong_enough: Clause::ClaimStrongEnough,
        from_views_start: Clause::ClaimFromViewsStart,
        to_views_end: Clause::ClaimToViewsEnd,
    };

    /// What a certificate must pass.
    pub const OF_A_CERTIFICATE: Words = Words {
        strong_enough: Clause::CertificateStrongEnough,
        from_views_start: Clause::CertificateFromViewsStart,
        to_views_end: Clause::CertificateToViewsEnd,
    };
}

impl View {
    /// Nobody's view, outside of which nothing is.
    pub const NOBODYS: View = View {
        viewer: None,
        outside: 0,
    };

    /// Goes on where words of a principal on an interval can be used in the view.
    pub fn usable<R: Reading, W: Watch>(
        self,
        trial: &mut Trial<R, W>,
        words: Words,
        principal: u16,
        interval: Interval,
        offset: u64,
    ) -> Result<(), Answer> {
        let clause = words.strong_enough;
        let strong = |viewer: &Viewer| trial.strong_enough(clause, principal, viewer.principal);
        let viewer = self.viewer.filter(strong);
        let viewed = trial.found(clause, viewer, offset)?.interval;
        trial.not_after(words.from_views_start, interval.from, viewed.from, offset)?;
        trial.not_after(words.to_views_end, viewed.to, interval.to, offset)
    }
}
