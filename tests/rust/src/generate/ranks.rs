//! Who stands above whom while the office works.

use super::office::Office;
use crate::data::Pair;

/// A name and all that stand above it by a chain of pairs, nearer ones first.
pub fn all_above(pairs: &[Pair], name: u16) -> Vec<u16> {
    let mut above = vec![name];
    let mut place = 0;
    while place < above.len() {
        for pair in pairs {
            if pair.weaker == above[place] && !above.contains(&pair.stronger) {
                above.push(pair.stronger);
            }
        }
        place += 1;
    }
    above
}

impl Office<'_> {
    /// Somebody whose words can be used in a view of a principal: where others stand above it, mostly one of them.
    pub fn speaker(&mut self, viewer: u16) -> u16 {
        let above = all_above(&self.pairs, viewer);
        if above.len() == 1 {
            return viewer;
        }
        match self.random.below(4) {
            0 => viewer,
            1 => above[above.len() - 1],
            _ => *self.random.pick(&above),
        }
    }
}
