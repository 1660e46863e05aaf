//! What several tests share.
#![allow(dead_code)]

pub mod solving;

use nostwier_reference::generate::Pair;
use nostwier_reference::{check_certificate, Failure, Refusal, Totals};

/// The answer for a pair as it stands.
pub fn check(pair: &Pair) -> Result<Totals, Failure> {
    check_certificate(&pair.case_file(), &pair.certificate_file())
}

pub fn refused<T>(refusal: Refusal) -> Result<T, Failure> {
    Err(Failure::Refused(refusal))
}

/// What the paper's program prints for a pair.
pub fn program_text(pair: &Pair) -> String {
    let input = [pair.case_file(), pair.certificate_file()].concat();
    nostwier_reference::program::whole_text(&input)
}
