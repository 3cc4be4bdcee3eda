//! All questions about one case.

use crate::archive;
use crate::coverage::Coverage;
use crate::difference::Outcome;
use crate::options::Options;
use crate::questions::{far_too_long, pairs, presses, program, records, text, values, verify};
use crate::wire::{records_in_bytes, respell};
use crate::wire_pairs::{cut_short, pairs_in_bytes};
use second_opinion::data::Case;
use second_opinion::generate::Random;

/// What is needed for asking both implementations about a case.
pub struct Asking<'a> {
    pub case: &'a Case,
    /// The case's records in the archive's bytes.
    pub records: Vec<u8>,
    /// The case's pairs in the archive's bytes, the last of which may be incomplete.
    pub pairs: Vec<u8>,
    pub index: u64,
    pub random: Random,
    pub options: &'a Options,
    pub coverage: &'a mut Coverage,
}

impl<'a> Asking<'a> {
    /// Ready to ask about a case.
    pub fn about(
        case: &'a Case,
        index: u64,
        mut random: Random,
        options: &'a Options,
        coverage: &'a mut Coverage,
    ) -> Asking<'a> {
        let mut records = records_in_bytes(&case.records);
        if random.one_in(4) {
            respell(&mut random, &mut records);
        }
        let mut pairs = pairs_in_bytes(&case.pairs);
        if random.one_in(2) {
            cut_short(&mut random, &mut pairs);
        }
        Asking {
            case,
            records,
            pairs,
            index,
            random,
            options,
            coverage,
        }
    }

    /// The case in the archive's bytes.
    pub fn for_archive(&self) -> archive::Case<'_> {
        archive::Case {
            request: self.case.request,
            records: &self.records,
            buffer: &self.case.buffer,
            pairs: &self.pairs,
            proof: &self.case.proof,
        }
    }

    /// Asks everything, up to the first difference.
    pub fn all(&mut self) -> Outcome {
        let issued = verify::ask(self)?;
        presses::ask(self, &issued)?;
        records::ask(self)?;
        pairs::ask(self)?;
        program::ask(self)?;
        let procap = match issued {
            Ok(procap) => procap,
            Err(_) if self.random.one_in(2) => crate::invented::procap(&mut self.random),
            Err(_) => return Ok(()),
        };
        text::ask(self, &procap)?;
        far_too_long::ask(self, &procap)?;
        values::ask(self, &procap)
    }
}
