//! Test vectors for a host of the library: calls of the eight operations, each
//! with the answer that is expected of it, as a stream of bytes.
//!
//! A record, big-endian:
//!
//! | what | size |
//! |---|---|
//! | operation, 1 to 8 | u8 |
//! | length of the first input: bytes, for writers numbers | u32 |
//! | length of the second input, the certificate; 0 if there is none | u32 |
//! | length of the lent buffer: numbers, for writers bytes; 0 if there is none | u32 |
//! | the first input | bytes, for writers i64s |
//! | the second input | bytes |
//! | refusal, 0 for success | u32 |
//! | place of 13 or row of 14, else 0 | u32 |
//! | cost, bound, gap; 0 unless a certificate is checked and accepted | three i64s |
//! | how many items are written into the buffer, 0 if refused | u32 |
//! | those items | i64s, for writers bytes |

mod draw;
pub mod harm;

pub use draw::{corpus_calls, Files, Source};

use crate::case_check::check_case;
use crate::operations::{self, Totals};
use crate::refusal::{Failure, Refusal};

/// What a host can call, with the names that the command line knows.
#[derive(Clone, Copy, Debug, PartialEq, Eq)]
pub enum Operation {
    CheckCase = 1,
    CheckCertificate = 2,
    Prices = 3,
    Charges = 4,
    ReadCase = 5,
    ReadCertificate = 6,
    WriteCase = 7,
    WriteCertificate = 8,
}

impl Operation {
    pub const NAMED: [(&'static str, Operation); 8] = [
        ("case", Operation::CheckCase),
        ("certificate", Operation::CheckCertificate),
        ("prices", Operation::Prices),
        ("charges", Operation::Charges),
        ("read-case", Operation::ReadCase),
        ("read-certificate", Operation::ReadCertificate),
        ("write-case", Operation::WriteCase),
        ("write-certificate", Operation::WriteCertificate),
    ];

    pub fn from_name(name: &str) -> Option<Operation> {
        let found = Operation::NAMED.into_iter().find(|(its_name, _)| *its_name == name);
        found.map(|(_, operation)| operation)
    }
}

/// One call with all that it is lent. `room` is how many items its buffer has.
#[derive(Clone, Debug, PartialEq, Eq)]
pub enum Call {
    CheckCase { case: Vec<u8> },
    CheckCertificate { case: Vec<u8>, certificate: Vec<u8> },
    Prices { case: Vec<u8>, certificate: Vec<u8>, room: usize },
    Charges { case: Vec<u8>, certificate: Vec<u8>, room: usize },
    ReadCase { case: Vec<u8>, room: usize },
    ReadCertificate { certificate: Vec<u8>, room: usize },
    WriteCase { numbers: Vec<i64>, room: usize },
    WriteCertificate { numbers: Vec<i64>, room: usize },
}

/// What a call leaves in its buffer.
#[derive(Clone, Debug, PartialEq, Eq)]
enum Written {
    Nothing,
    Numbers(Vec<i64>),
    Bytes(Vec<u8>),
}

/// What is expected of a call.
#[derive(Clone, Debug, PartialEq, Eq)]
struct Answer {
    refusal: Option<Refusal>,
    totals: Totals,
    written: Written,
}

const NOTHING: Answer = Answer {
    refusal: None,
    totals: Totals { cost: 0, bound: 0, gap: 0 },
    written: Written::Nothing,
};

impl Call {
    fn operation(&self) -> Operation {
        match self {
            Call::CheckCase { .. } => Operation::CheckCase,
            Call::CheckCertificate { .. } => Operation::CheckCertificate,
            Call::Prices { .. } => Operation::Prices,
            Call::Charges { .. } => Operation::Charges,
            Call::ReadCase { .. } => Operation::ReadCase,
            Call::ReadCertificate { .. } => Operation::ReadCertificate,
            Call::WriteCase { .. } => Operation::WriteCase,
            Call::WriteCertificate { .. } => Operation::WriteCertificate,
        }
    }

    /// The answer of the reference; a failure only if a number fits nowhere.
    fn answer(&self) -> Result<Answer, Failure> {
        let outcome = match self {
            Call::CheckCase { case } => check_case(case).map(|_| NOTHING).map_err(Failure::from),
            Call::CheckCertificate { case, certificate } => {
                operations::check_certificate(case, certificate)
                    .map(|totals| Answer { totals, ..NOTHING })
            }
            Call::Prices { case, certificate, room } => {
                into_numbers(*room, |out| operations::prices(case, certificate, out))
            }
            Call::Charges { case, certificate, room } => {
                into_numbers(*room, |out| operations::charges(case, certificate, out))
            }
            Call::ReadCase { case, room } => {
                into_numbers(*room, |out| Ok(operations::read_case(case, out)?))
            }
            Call::ReadCertificate { certificate, room } => {
                into_numbers(*room, |out| Ok(operations::read_certificate(certificate, out)?))
            }
            Call::WriteCase { numbers, room } => {
                into_bytes(*room, |out| Ok(operations::write_case(numbers, out)?))
            }
            Call::WriteCertificate { numbers, room } => {
                into_bytes(*room, |out| Ok(operations::write_certificate(numbers, out)?))
            }
        };
        match outcome {
            Err(Failure::Refused(refusal)) => Ok(Answer { refusal: Some(refusal), ..NOTHING }),
            other => other,
        }
    }

    /// Adds the record of this call to `out`.
    pub fn record(&self, out: &mut Vec<u8>) -> Result<(), Failure> {
        let answer = self.answer()?;
        out.push(self.operation() as u8);
        match self {
            Call::CheckCase { case } => put_bytes_lent(out, case, &[], 0),
            Call::CheckCertificate { case, certificate } => {
                put_bytes_lent(out, case, certificate, 0)
            }
            Call::Prices { case, certificate, room }
            | Call::Charges { case, certificate, room } => {
                put_bytes_lent(out, case, certificate, *room)
            }
            Call::ReadCase { case: file, room }
            | Call::ReadCertificate { certificate: file, room } => {
                put_bytes_lent(out, file, &[], *room)
            }
            Call::WriteCase { numbers, room } | Call::WriteCertificate { numbers, room } => {
                put_lengths(out, numbers.len(), 0, *room);
                put_numbers(out, numbers);
            }
        }
        answer.put(out);
        Ok(())
    }
}

impl Answer {
    fn put(&self, out: &mut Vec<u8>) {
        let number = self.refusal.map_or(0, Refusal::number);
        let place = self.refusal.and_then(Refusal::place).unwrap_or(0);
        put_u32(out, number as usize);
        put_u32(out, place);
        put_numbers(out, &[self.totals.cost, self.totals.bound, self.totals.gap]);
        match &self.written {
            Written::Nothing => put_u32(out, 0),
            Written::Numbers(numbers) => {
                put_u32(out, numbers.len());
                put_numbers(out, numbers);
            }
            Written::Bytes(bytes) => {
                put_u32(out, bytes.len());
                out.extend_from_slice(bytes);
            }
        }
    }
}

fn into_numbers(
    room: usize,
    call: impl Fn(&mut [i64]) -> Result<usize, Failure>,
) -> Result<Answer, Failure> {
    let mut buffer = vec![0; room];
    let count = call(&mut buffer)?;
    buffer.truncate(count);
    Ok(Answer { written: Written::Numbers(buffer), ..NOTHING })
}

fn into_bytes(
    room: usize,
    call: impl Fn(&mut [u8]) -> Result<usize, Failure>,
) -> Result<Answer, Failure> {
    let mut buffer = vec![0; room];
    let count = call(&mut buffer)?;
    buffer.truncate(count);
    Ok(Answer { written: Written::Bytes(buffer), ..NOTHING })
}

fn put_bytes_lent(out: &mut Vec<u8>, first: &[u8], second: &[u8], room: usize) {
    put_lengths(out, first.len(), second.len(), room);
    out.extend_from_slice(first);
    out.extend_from_slice(second);
}

fn put_lengths(out: &mut Vec<u8>, first: usize, second: usize, room: usize) {
    for length in [first, second, room] {
        put_u32(out, length);
    }
}

/// Lengths, counts and places here are far below the ends of a u32.
fn put_u32(out: &mut Vec<u8>, number: usize) {
    out.extend_from_slice(&(number as u32).to_be_bytes());
}

fn put_numbers(out: &mut Vec<u8>, numbers: &[i64]) {
    for number in numbers {
        out.extend_from_slice(&number.to_be_bytes());
    }
}
