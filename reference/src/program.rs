//! The text of the paper's program: a case then a certificate in, lines out.

use crate::accounts::accounts;
use crate::certificate::{accept, Accepted, Certificate};
use crate::layout;
use crate::prices::{lmps, zone_prices};
use crate::refusal::{Failure, Refusal};
use crate::rows::index_of;
use crate::standing::Product;

/// The most bytes the program takes.
pub const LONGEST_INPUT: usize = 32_768;

/// Splits case from certificate: the case is the first 4 + length bytes, or
/// all if there are fewer.
pub fn split(input: &[u8]) -> (&[u8], &[u8]) {
    let size = layout::announced_size(input).unwrap_or(input.len());
    input.split_at(size.min(input.len()))
}

/// What the program prints for an accepted pair.
pub fn text(input: &[u8]) -> Result<String, Failure> {
    if input.len() > LONGEST_INPUT {
        return Err(Refusal::InputTooLong.into());
    }
    let (case, certificate) = split(input);
    accepted_text(&accept(case, certificate)?)
}

/// What the program prints, refusals included; a line feed ends each line.
pub fn whole_text(input: &[u8]) -> String {
    text(input).unwrap_or_else(|failure| format!("{failure}\n"))
}

fn accepted_text(accepted: &Accepted) -> Result<String, Failure> {
    let accounts = accounts(accepted)?;
    let mut lines = vec![
        format!("cost {}", accounts.cost),
        format!("bound {}", accounts.bound),
        format!("gap {}", accounts.gap),
    ];
    let Certificate { version, amounts, .. } = &accepted.certificate;
    for (index, (standing, lmp)) in accepted.standings.iter().zip(lmps(accepted)?).enumerate() {
        let online = u8::from(standing.is_online());
        let printed = Product::PRINTED.map(|product| amounts[index_of(*version, index, product)]);
        lines.push(format!("{} {} {} {}", index + 1, online, spaced(&printed), lmp));
    }
    for (index, prices) in zone_prices(accepted).into_iter().enumerate() {
        lines.push(format!("zone {} {}", index + 1, spaced(&prices.in_order())));
    }
    lines.push(String::new());
    Ok(lines.join("\n"))
}

fn spaced(numbers: &[i64]) -> String {
    numbers.iter().map(i64::to_string).collect::<Vec<_>>().join(" ")
}
