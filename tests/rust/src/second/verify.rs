//! Verify: from a case to a procap or a refusal.

use super::certificates::{read_certificates, Certificate};
use super::clauses::{Clause, Watch};
use super::judging::walk;
use super::reading::Office;
use super::steps::{read_proof, Step};
use super::strength::few_enough;
use crate::data::{Answer, Case, Procap};

/// The certificates and the proof of a case, or which of them is malformed, or that between them the pairs are too many.
pub fn read_case<W: Watch>(case: &Case, watch: &mut W) -> Result<(Vec<Certificate>, Step), Answer> {
    let certificates = read_certificates(&case.records, &case.buffer, watch)?;
    few_enough(&case.pairs)?;
    let proof = read_proof(&case.proof, certificates.len()).ok_or(Answer::refused(2, 0))?;
    Ok((certificates, proof))
}

/// The procap that verify issues for a case, or its refusal.
pub fn verify<W: Watch>(case: &Case, watch: &mut W) -> Result<Procap, Answer> {
    let (certificates, proof) = read_case(case, watch)?;
    let mut office = Office::new();
    walk(case, &certificates, &proof, &mut office, watch)?;
    let moment_left = office.moment_left();
    watch.clause(Clause::MomentLeft, moment_left);
    if !moment_left {
        return Err(Answer::refused(5, 0));
    }
    Ok(office.procap(case.request))
}
