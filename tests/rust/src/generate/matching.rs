//! Finds the eliminations that lead from a formula at hand to a wanted one.

use super::clock::Clock;
use super::enlarge::{Elimination, Plan};
use super::formula::Formula;
use super::tags;
use super::word::{sort_of, Sort, Word};
use super::Random;
use crate::data::{Term, Time};

/// One elimination before the terms of the instances are known.
#[derive(Clone)]
enum Move<'a> {
    First,
    Second,
    Apply(&'a Formula),
    Instance(Sort),
}

/// The terms found for the instances, the first for the outermost.
type Found = Vec<Option<Term>>;

/// A search for one wanted formula.
struct Search<'a> {
    clock: &'a Clock,
    wanted: &'a Formula,
    moves: Vec<Move<'a>>,
    ways: Vec<(Vec<Move<'a>>, Found)>,
}

/// All ways from a formula at hand to the wanted one.
pub fn ways(random: &mut Random, clock: &Clock, hand: &Formula, wanted: &Formula) -> Vec<Plan> {
    let mut search = Search {
        clock,
        wanted,
        moves: Vec::new(),
        ways: Vec::new(),
    };
    search.enter(hand);
    let ways = search.ways;
    ways.into_iter()
        .map(|(moves, found)| plan_of(random, clock, &moves, found))
        .collect()
}

impl<'a> Search<'a> {
    /// Notes every way through the formula.
    fn enter(&mut self, formula: &'a Formula) {
        let sorts: Vec<Sort> = self.moves.iter().filter_map(sort_of_move).collect();
        let mut found: Found = vec![None; sorts.len()];
        if agree(self.clock, formula, self.wanted, 0, &sorts, &mut found) {
            self.ways.push((self.moves.clone(), found));
        }
        match formula.tag {
            tags::BOTH => {
                self.through(Move::First, &formula.parts[0]);
                self.through(Move::Second, &formula.parts[1]);
            }
            tags::IMPLIES => self.through(Move::Apply(&formula.parts[0]), &formula.parts[1]),
            tags::ALL_NAMES => self.through(Move::Instance(Sort::Name), &formula.parts[0]),
            tags::ALL_TIMES => self.through(Move::Instance(Sort::Time), &formula.parts[0]),
            _ => {}
        }
    }

    /// Notes every way that starts with a move.
    fn through(&mut self, step: Move<'a>, formula: &'a Formula) {
        self.moves.push(step);
        self.enter(formula);
        self.moves.pop();
    }
}

/// The sort that a move puts a term for.
fn sort_of_move(step: &Move) -> Option<Sort> {
    match step {
        Move::Instance(sort) => Some(*sort),
        _ => None,
    }
}

/// Whether the formula agrees with the wanted one for some terms, which are noted.
fn agree(
    clock: &Clock,
    formula: &Formula,
    wanted: &Formula,
    depth: usize,
    sorts: &[Sort],
    found: &mut Found,
) -> bool {
    let inner = depth + usize::from(formula.binds().is_some());
    formula.tag == wanted.tag
        && formula.predicate == wanted.predicate
        && formula.words.len() == wanted.words.len()
        && (formula.words.iter().zip(&wanted.words))
            .all(|(word, other)| words_agree(clock, *word, *other, depth, sorts, found))
        && (formula.parts.iter().zip(&wanted.parts))
            .all(|(part, other)| agree(clock, part, other, inner, sorts, found))
}

/// Whether two words agree under so many binders, for some terms.
fn words_agree(
    clock: &Clock,
    word: Word,
    wanted: Word,
    depth: usize,
    sorts: &[Sort],
    found: &mut Found,
) -> bool {
    match (word, wanted) {
        (Word::Bound(index), Word::Fixed(term)) if usize::from(index) >= depth => {
            let place = sorts.len() - 1 - (usize::from(index) - depth);
            let earlier = *found[place].get_or_insert(term);
            sort_of(term) == sorts[place] && same(clock, earlier, term)
        }
        (Word::Fixed(term), Word::Fixed(other)) => same(clock, term, other),
        _ => word == wanted,
    }
}

/// Whether two terms are the same at the press.
fn same(clock: &Clock, term: Term, other: Term) -> bool {
    match (term, other) {
        (Term::When(time), Term::When(other)) => clock.stand(time) == clock.stand(other),
        _ => term == other,
    }
}

/// The plan that moves make with the terms found, and any for those left open.
fn plan_of(random: &mut Random, clock: &Clock, moves: &[Move], found: Found) -> Plan {
    let mut plan = Plan::new();
    let mut terms: Vec<Term> = Vec::new();
    for step in moves {
        plan.push(match step {
            Move::First => Elimination::First,
            Move::Second => Elimination::Second,
            Move::Apply(formula) => Elimination::Apply(filled(formula, &terms)),
            Move::Instance(sort) => {
                let term = found[terms.len()].unwrap_or_else(|| any_term(random, clock, *sort));
                terms.push(term);
                Elimination::Instance(term)
            }
        });
    }
    plan.reverse();
    plan
}

/// Any term of a sort.
fn any_term(random: &mut Random, clock: &Clock, sort: Sort) -> Term {
    match sort {
        Sort::Name => Term::Name(random.below(8) as u16),
        Sort::Time => {
            let time: Time = clock.any(random, 2);
            Term::When(time)
        }
    }
}

/// The formula with the terms of the instances around it put in, the last being the innermost.
fn filled(formula: &Formula, terms: &[Term]) -> Formula {
    formula.changed(&mut |word, depth| match word {
        Word::Bound(index) if index >= depth => {
            Word::Fixed(terms[terms.len() - 1 - usize::from(index - depth)])
        }
        _ => word,
    })
}
