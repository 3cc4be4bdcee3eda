//! Cases whose certificates are by one who stands above the administrator by a chain of 128 pairs, and the same by the
//! administrator with no pairs.

use crate::examples::example;
use second_opinion::data::{Case, Pair};
use second_opinion::generate::{asking_often, longest_chain, MOST_ENDS};

/// The administrator, in whose view all is shown.
const ADMINISTRATOR: u16 = 1;

/// How often the proof asks whether the certificates' principal is strong enough.
#[derive(Clone, Copy)]
pub enum Asks {
    /// Once, in case P.
    Once,
    /// As often as a proof can.
    Often,
}

/// Which pairs are lent.
#[derive(Clone, Copy)]
pub enum Lent {
    /// None, and the certificates are by the administrator.
    None,
    /// The whole chain, its lowest pair first: going over the list from its front finds one step further down each time.
    BottomFirst,
    /// The whole chain, its highest pair first: going over the list from its front finds one step further up each time.
    TopFirst,
}

impl Lent {
    /// Who the certificates are by, and the pairs.
    fn signed(self) -> (u16, Vec<Pair>) {
        let (top, mut pairs) = longest_chain(ADMINISTRATOR);
        match self {
            Lent::None => return (ADMINISTRATOR, Vec::new()),
            Lent::BottomFirst => {}
            Lent::TopFirst => pairs.reverse(),
        }
        (top, pairs)
    }
}

/// The case that asks so often, with these pairs.
pub fn chained(asks: Asks, lent: Lent) -> Case {
    let (principal, pairs) = lent.signed();
    let mut case = example("p");
    if let Asks::Often = asks {
        return asking_often(case.request, principal, pairs, MOST_ENDS);
    }
    case.records[0].principal = principal;
    case.pairs = pairs;
    case
}

/// What that case is called.
pub fn name_of(asks: Asks, lent: Lent) -> String {
    let lent = match lent {
        Lent::None => "no pairs",
        Lent::BottomFirst => "128 pairs in a chain",
        Lent::TopFirst => "128 pairs, top first",
    };
    match asks {
        Asks::Once => lent.to_string(),
        Asks::Often => format!("asked often, {lent}"),
    }
}
