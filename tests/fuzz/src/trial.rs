//! One execution: a call of the library, or a run of the program, with all that it is given.

use nostwier_reference::program;
use nostwier_reference::vectors::{Call, Operation};

#[derive(Clone, Copy, Debug, PartialEq, Eq)]
pub enum What {
    Call(Operation),
    Program,
}

impl What {
    pub fn name(self) -> &'static str {
        match self {
            What::Call(operation) => {
                let named = Operation::NAMED.into_iter().find(|(_, other)| *other == operation);
                named.map_or("?", |(name, _)| name)
            }
            What::Program => "program",
        }
    }
}

/// Whatever the execution does not take is empty.
#[derive(Clone, Debug, PartialEq, Eq)]
pub struct Trial {
    pub what: What,
    pub case: Vec<u8>,
    pub certificate: Vec<u8>,
    pub numbers: Vec<i64>,
    pub room: usize,
}

/// What the reference says of an execution, as far as it tells executions apart.
#[derive(Clone, Copy, Debug, PartialEq, Eq, Hash)]
pub struct Outcome {
    what: u8,
    refusal: u32,
    place: u32,
    size_of_gap: u32,
    signs: (bool, bool),
}

impl Trial {
    pub fn program(case: Vec<u8>, certificate: Vec<u8>) -> Trial {
        Trial { what: What::Program, case, certificate, numbers: Vec::new(), room: 0 }
    }

    pub fn of_call(call: Call) -> Trial {
        let none = Trial::program(Vec::new(), Vec::new());
        let of = |operation| Trial { what: What::Call(operation), ..none.clone() };
        match call {
            Call::CheckCase { case } => Trial { case, ..of(Operation::CheckCase) },
            Call::CheckCertificate { case, certificate } => {
                Trial { case, certificate, ..of(Operation::CheckCertificate) }
            }
            Call::Prices { case, certificate, room } => {
                Trial { case, certificate, room, ..of(Operation::Prices) }
            }
            Call::Charges { case, certificate, room } => {
                Trial { case, certificate, room, ..of(Operation::Charges) }
            }
            Call::ReadCase { case, room } => Trial { case, room, ..of(Operation::ReadCase) },
            Call::ReadCertificate { certificate, room } => {
                Trial { certificate, room, ..of(Operation::ReadCertificate) }
            }
            Call::WriteCase { numbers, room } => {
                Trial { numbers, room, ..of(Operation::WriteCase) }
            }
            Call::WriteCertificate { numbers, room } => {
                Trial { numbers, room, ..of(Operation::WriteCertificate) }
            }
        }
    }

    fn call(&self, operation: Operation) -> Call {
        let Trial { case, certificate, numbers, room, .. } = self.clone();
        match operation {
            Operation::CheckCase => Call::CheckCase { case },
            Operation::CheckCertificate => Call::CheckCertificate { case, certificate },
            Operation::Prices => Call::Prices { case, certificate, room },
            Operation::Charges => Call::Charges { case, certificate, room },
            Operation::ReadCase => Call::ReadCase { case, room },
            Operation::ReadCertificate => Call::ReadCertificate { certificate, room },
            Operation::WriteCase => Call::WriteCase { numbers, room },
            Operation::WriteCertificate => Call::WriteCertificate { numbers, room },
        }
    }

    /// The record of a call, with the reference's answer, as a host takes it; the input of a
    /// program.
    pub fn bytes(&self) -> Result<Vec<u8>, String> {
        match self.what {
            What::Program => Ok([&self.case[..], &self.certificate].concat()),
            What::Call(operation) => {
                let mut record = Vec::new();
                let written = self.call(operation).record(&mut record);
                written.map(|()| record).map_err(|failure| format!("the reference: {failure}"))
            }
        }
    }

    /// What the program must print.
    pub fn text(&self) -> String {
        program::whole_text(&[&self.case[..], &self.certificate].concat())
    }

    /// Of a call: read from the answer in its record. A program's is not looked at.
    pub fn outcome(&self, record: &[u8]) -> Option<Outcome> {
        let What::Call(operation) = self.what else {
            return None;
        };
        let lent = self.case.len() + self.certificate.len() + 8 * self.numbers.len();
        let at = 13 + lent;
        let word = |at: usize| Some(u32::from_be_bytes(record.get(at..at + 4)?.try_into().ok()?));
        let number = |at: usize| Some(i64::from_be_bytes(record.get(at..at + 8)?.try_into().ok()?));
        Some(Outcome {
            what: operation as u8,
            refusal: word(at)?,
            place: word(at + 4)?,
            size_of_gap: number(at + 24)?.leading_zeros() / 4,
            signs: (number(at + 8)? < 0, number(at + 16)? < 0),
        })
    }
}
