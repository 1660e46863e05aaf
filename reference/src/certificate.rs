//! A certificate, and the check of a certificate against its case, 8 to 14.

use crate::case::Case;
use crate::case_check::check_case;
use crate::layout::{self, Counts, Field, Version, SHORTEST_CERTIFICATE};
use crate::refusal::Refusal;
use crate::rows::{quantities, rows, Quantity, Row};
use crate::standing::{standings, Standing};
use crate::units::Kw;

/// A schedule with the prices of its rows.
#[derive(Clone, Debug, PartialEq, Eq)]
pub struct Certificate {
    pub version: Version,
    pub counts: Counts,
    /// In the order of places: the cleared ones, then those of each resource.
    pub amounts: Vec<Kw>,
    /// In the order of rows. A flowgate's is in cents, for its row counts in
    /// thousandths of a kW; all others are in thousandths of a cent.
    pub row_prices: Vec<i64>,
}

impl Certificate {
    /// The certificate whose fields, counts left out, hold these numbers. Places
    /// and rows go in the order of their fields.
    pub fn from_numbers(version: Version, counts: Counts, numbers: &[i64]) -> Certificate {
        let fields = layout::certificate_fields(version, counts);
        let of_kind = |quantity: bool| {
            let both = fields.iter().zip(numbers);
            both.filter(move |(field, _)| field.quantity == quantity).map(|(_, number)| *number)
        };
        Certificate {
            version,
            counts,
            amounts: of_kind(true).collect(),
            row_prices: of_kind(false).collect(),
        }
    }

    /// The numbers of its fields, counts left out, in the order of the file.
    pub fn numbers(&self) -> Vec<i64> {
        let mut amounts = self.amounts.iter();
        let mut row_prices = self.row_prices.iter();
        let number = |field: &Field| {
            let next = if field.quantity { amounts.next() } else { row_prices.next() };
            next.copied().unwrap_or(0)
        };
        layout::certificate_fields(self.version, self.counts).iter().map(number).collect()
    }
}

/// A certificate accepted for its case, with all that the check worked out.
#[derive(Clone, Debug)]
pub struct Accepted {
    pub case: Case,
    pub standings: Vec<Standing>,
    pub rows: Vec<Row>,
    pub certificate: Certificate,
}

/// Checks case and certificate, 1 to 14.
pub fn accept(case_file: &[u8], certificate_file: &[u8]) -> Result<Accepted, Refusal> {
    let case = check_case(case_file)?;
    let certificate = well_formed(&case, certificate_file)?;
    let standings = standings(&case);
    if let Some(place) = first_above_bound(&case, &standings, &certificate.amounts) {
        return Err(Refusal::Quantity { place });
    }
    let rows = rows(&case, &standings);
    if let Some(row) = first_broken(&rows, &certificate.amounts) {
        return Err(Refusal::Row { row });
    }
    Ok(Accepted { case, standings, rows, certificate })
}

/// Stages 8 to 12, which need only the counts of the case.
fn well_formed(case: &Case, file: &[u8]) -> Result<Certificate, Refusal> {
    if file.len() < SHORTEST_CERTIFICATE || !layout::length_is_right(file) {
        return Err(Refusal::CertificateLength);
    }
    let version = layout::announced_version(file).ok_or(Refusal::CertificateVersion)?;
    let counts = layout::announced_counts(file).ok_or(Refusal::CertificateCounts)?;
    if counts != case.counts {
        return Err(Refusal::CertificateCounts);
    }
    let fields = layout::certificate_fields(version, counts);
    if file.len() != layout::file_size(&fields) {
        return Err(Refusal::CertificateSize);
    }
    let numbers = layout::read_fields(file, &fields);
    if !fields.iter().zip(&numbers).all(|(field, number)| field.allows(*number)) {
        return Err(Refusal::Price);
    }
    Ok(Certificate::from_numbers(version, counts, &numbers))
}

/// The upper bound of each quantity, in the order of places.
pub fn upper_bounds(case: &Case, standings: &[Standing]) -> Vec<Kw> {
    let bound = |quantity| match quantity {
        Quantity::Cleared(curve) => case.curve_width(curve),
        Quantity::Of(resource, product) => standings[resource].bound(product),
    };
    quantities(case.version, case.counts).into_iter().map(bound).collect()
}

/// The place of the first amount above its bound.
pub fn first_above_bound(case: &Case, standings: &[Standing], amounts: &[Kw]) -> Option<usize> {
    let bounds = upper_bounds(case, standings);
    let index = amounts.iter().zip(&bounds).position(|(amount, bound)| amount > bound)?;
    Some(index + 1)
}

/// The number of the first row that does not hold.
pub fn first_broken(rows: &[Row], amounts: &[Kw]) -> Option<usize> {
    let index = rows.iter().position(|row| !row.holds(amounts))?;
    Some(index + 1)
}
