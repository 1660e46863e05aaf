//! The dispatch certificate of one five-minute interval, read a second time.
//!
//! Everything here is written from the paper and the requests that change it
//! alone, with plain means: each file is a list of fields, each row a full
//! vector of coefficients, each sum exact. It is the yardstick that the proved
//! code is compared with, so it prefers to be plainly right over being quick.

pub mod accounts;
pub mod case;
pub mod case_check;
mod case_numbers;
pub mod certificate;
pub mod command;
pub mod damage;
pub mod enumerate;
pub mod generate;
pub mod layout;
pub mod operations;
pub mod prices;
pub mod program;
pub mod random;
pub mod refusal;
pub mod rows;
pub mod solve;
pub mod standing;
pub mod units;
pub mod vectors;
pub mod worked;

pub use case_check::check_case;
pub use operations::{
    charges, check_certificate, prices, read_case, read_certificate, write_case, write_certificate,
    Totals,
};
pub use refusal::{Failure, Refusal};
