//! Why an operation refuses, with the paper's numbers.

use std::fmt;

/// A refusal; `number` gives the paper's number for it.
#[derive(Clone, Copy, Debug, PartialEq, Eq)]
pub enum Refusal {
    CaseLength,
    CaseVersion,
    Counts,
    CaseSize,
    FieldRange,
    StepRule,
    LimitPair,
    CertificateLength,
    CertificateVersion,
    CertificateCounts,
    CertificateSize,
    Price,
    /// The first quantity above its bound: the cleared ones, then each resource's.
    Quantity {
        place: usize,
    },
    /// The first broken row, counted from 1.
    Row {
        row: usize,
    },
    BufferTooShort,
    Numbers,
    InputTooLong,
}

impl Refusal {
    pub fn number(self) -> u32 {
        match self {
            Refusal::CaseLength => 1,
            Refusal::CaseVersion => 2,
            Refusal::Counts => 3,
            Refusal::CaseSize => 4,
            Refusal::FieldRange => 5,
            Refusal::StepRule => 6,
            Refusal::LimitPair => 7,
            Refusal::CertificateLength => 8,
            Refusal::CertificateVersion => 9,
            Refusal::CertificateCounts => 10,
            Refusal::CertificateSize => 11,
            Refusal::Price => 12,
            Refusal::Quantity { .. } => 13,
            Refusal::Row { .. } => 14,
            Refusal::BufferTooShort => 15,
            Refusal::Numbers => 16,
            Refusal::InputTooLong => 17,
        }
    }

    /// The place of 13 or the row of 14.
    pub fn place(self) -> Option<usize> {
        match self {
            Refusal::Quantity { place } => Some(place),
            Refusal::Row { row } => Some(row),
            _ => None,
        }
    }
}

impl fmt::Display for Refusal {
    fn fmt(&self, out: &mut fmt::Formatter<'_>) -> fmt::Result {
        match self.place() {
            Some(place) => write!(out, "refused {} {}", self.number(), place),
            None => write!(out, "refused {}", self.number()),
        }
    }
}

/// What keeps an operation that reports numbers from answering.
#[derive(Clone, Copy, Debug, PartialEq, Eq)]
pub enum Failure {
    Refused(Refusal),
    /// A number to be reported does not fit a signed 64-bit number. The paper
    /// promises that this cannot be; the reference looks all the same.
    DoesNotFit(&'static str),
}

impl From<Refusal> for Failure {
    fn from(refusal: Refusal) -> Failure {
        Failure::Refused(refusal)
    }
}

impl fmt::Display for Failure {
    fn fmt(&self, out: &mut fmt::Formatter<'_>) -> fmt::Result {
        match self {
            Failure::Refused(refusal) => refusal.fmt(out),
            Failure::DoesNotFit(what) => write!(out, "{what} does not fit 64 bits"),
        }
    }
}
