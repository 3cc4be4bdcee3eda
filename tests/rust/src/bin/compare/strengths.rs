//! In which ways it came out that one principal is at least as strong as another, or is not.

use second_opinion::data::Pair;

/// A way in which that came out.
#[derive(Clone, Copy, Debug, PartialEq, Eq, PartialOrd, Ord)]
pub enum Way {
    /// Held: both are the same.
    Same,
    /// Held: the shortest chain has one pair.
    ByOne,
    /// Held: it has two.
    ByTwo,
    /// Held: it has 3 to 100.
    ByAFew,
    /// Held: it has over 100.
    ByMany,
    /// Held by a chain, and a pair leads back from one of its names to an earlier one.
    PastARing,
    /// Held by a chain, and by another beside it that has none of its inner names.
    ByTwoWays,
    /// Held by a chain of 3 pairs or more that are listed with the lowest first.
    LowestFirst,
    /// Held by a chain, among 128 pairs.
    AmongTheMost,
    /// Failed: no pair is lent.
    NoPair,
    /// Failed, while the other is the stronger.
    TurnedRound,
    /// Failed, while pairs lead down from the one and up from the other.
    Apart,
    /// Failed, while a chain leads from the principal back to it, past somebody else.
    RoundARing,
    /// Failed, among 128 pairs.
    NoneOfTheMost,
}

impl Way {
    /// Every way there is.
    pub const ALL: [Way; 14] = [
        Way::Same,
        Way::ByOne,
        Way::ByTwo,
        Way::ByAFew,
        Way::ByMany,
        Way::PastARing,
        Way::ByTwoWays,
        Way::LowestFirst,
        Way::AmongTheMost,
        Way::NoPair,
        Way::TurnedRound,
        Way::Apart,
        Way::RoundARing,
        Way::NoneOfTheMost,
    ];

    /// The ways in which it came out whether the first of two principals is at least as strong as the second.
    pub fn of(pairs: &[Pair], (principal, other): (u16, u16), held: bool) -> Vec<Way> {
        if principal == other {
            return vec![Way::Same];
        }
        match (held, shortest_chain(pairs, principal, other)) {
            (true, Some(chain)) => by_a_chain(pairs, &chain),
            (true, None) => Vec::new(),
            (false, _) => by_none(pairs, principal, other),
        }
    }
}

/// The ways in which it held by a chain.
fn by_a_chain(pairs: &[Pair], chain: &[u16]) -> Vec<Way> {
    let mut ways = vec![match chain.len() - 1 {
        1 => Way::ByOne,
        2 => Way::ByTwo,
        3..=100 => Way::ByAFew,
        _ => Way::ByMany,
    }];
    let place = |name| chain.iter().position(|one| *one == name);
    let back = |pair: &Pair| match (place(pair.stronger), place(pair.weaker)) {
        (Some(from), Some(to)) => to < from,
        _ => false,
    };
    if pairs.iter().any(back) {
        ways.push(Way::PastARing);
    }
    if another_way(pairs, chain) {
        ways.push(Way::ByTwoWays);
    }
    if chain.len() > 3 && lowest_first(pairs, chain) {
        ways.push(Way::LowestFirst);
    }
    if pairs.len() == 128 {
        ways.push(Way::AmongTheMost);
    }
    ways
}

/// Whether another chain leads from the first name of a chain to its last, past none of those between.
fn another_way(pairs: &[Pair], chain: &[u16]) -> bool {
    let (first, last) = (chain[0], chain[chain.len() - 1]);
    let inner = &chain[1..chain.len() - 1];
    let is_link = |pair: &Pair| inner.is_empty() && (pair.stronger, pair.weaker) == (first, last);
    let passes = |pair: &Pair| inner.contains(&pair.stronger) || inner.contains(&pair.weaker);
    let beside = pairs.iter().filter(|pair| !is_link(pair) && !passes(pair));
    shortest_chain(&beside.copied().collect::<Vec<_>>(), first, last).is_some()
}

/// Whether the links of a chain stand in a list with the lowest first, and no link stands there twice.
fn lowest_first(pairs: &[Pair], chain: &[u16]) -> bool {
    let is_link = |pair: &Pair| {
        chain
            .windows(2)
            .any(|two| (pair.stronger, pair.weaker) == (two[0], two[1]))
    };
    let links: Vec<&Pair> = pairs.iter().filter(|pair| is_link(pair)).collect();
    let upwards = chain.windows(2).rev();
    links.len() == chain.len() - 1
        && links
            .iter()
            .zip(upwards)
            .all(|(link, two)| (link.stronger, link.weaker) == (two[0], two[1]))
}

/// The ways in which it failed.
fn by_none(pairs: &[Pair], principal: u16, other: u16) -> Vec<Way> {
    if pairs.is_empty() {
        return vec![Way::NoPair];
    }
    let mut ways = Vec::new();
    if shortest_chain(pairs, other, principal).is_some() {
        ways.push(Way::TurnedRound);
    } else if pairs.iter().any(|pair| pair.stronger == principal)
        && pairs.iter().any(|pair| pair.weaker == other)
    {
        ways.push(Way::Apart);
    }
    let closes = |pair: &&Pair| pair.weaker == principal && pair.stronger != principal;
    let mut closing = pairs.iter().filter(closes);
    if closing.any(|pair| shortest_chain(pairs, principal, pair.stronger).is_some()) {
        ways.push(Way::RoundARing);
    }
    if pairs.len() == 128 {
        ways.push(Way::NoneOfTheMost);
    }
    ways
}

/// The names on a shortest chain from one name down to another, if there is a chain.
fn shortest_chain(pairs: &[Pair], from: u16, to: u16) -> Option<Vec<u16>> {
    // Each name with the place of the one above it by which it was found; the first stands above itself.
    let mut found = vec![(from, 0)];
    let mut place = 0;
    while found.get(place)?.0 != to {
        let stronger = found[place].0;
        for pair in pairs.iter().filter(|pair| pair.stronger == stronger) {
            if found.iter().all(|(name, _)| *name != pair.weaker) {
                found.push((pair.weaker, place));
            }
        }
        place += 1;
    }
    let mut chain = vec![to];
    while place > 0 {
        place = found[place].1;
        chain.push(found[place].0);
    }
    chain.reverse();
    Some(chain)
}
