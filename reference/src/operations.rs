//! The operations that hosts call: bytes or numbers in, an answer out, with
//! lent buffers. A refusal writes nothing; a success leaves what lies beyond
//! its output untouched.

use crate::accounts::accounts;
use crate::case_check::{check_case, check_case_numbers};
use crate::certificate::accept;
use crate::layout::{self, Counts, Field, Version, SHORTEST_CERTIFICATE};
use crate::prices::{lmps, zone_prices};
use crate::refusal::{Failure, Refusal};

/// The version of the files that the writers write.
pub const WRITTEN: Version = Version::ONE;

/// Cost, bound and gap of an accepted certificate, in grains.
#[derive(Clone, Copy, Debug, PartialEq, Eq)]
pub struct Totals {
    pub cost: i64,
    pub bound: i64,
    pub gap: i64,
}

pub fn check_certificate(case: &[u8], certificate: &[u8]) -> Result<Totals, Failure> {
    let accounts = accounts(&accept(case, certificate)?)?;
    Ok(Totals { cost: accounts.cost, bound: accounts.bound, gap: accounts.gap })
}

/// R LMPs, then each zone's regulating, spinning, supplemental, short-term.
pub fn prices(case: &[u8], certificate: &[u8], out: &mut [i64]) -> Result<usize, Failure> {
    let accepted = accept(case, certificate)?;
    let mut list = lmps(&accepted)?;
    for zone in zone_prices(&accepted) {
        list.extend(zone.in_order());
    }
    Ok(lend(&list, out)?)
}

/// Rows; per resource its energy steps and its other products; curve steps.
pub fn charges(case: &[u8], certificate: &[u8], out: &mut [i64]) -> Result<usize, Failure> {
    let accounts = accounts(&accept(case, certificate)?)?;
    Ok(lend(&accounts.charges, out)?)
}

/// Every field of a case but length and version.
pub fn read_case(file: &[u8], out: &mut [i64]) -> Result<usize, Refusal> {
    let case = check_case(file)?;
    lend(&with_counts(case.counts, &case.numbers()), out)
}

/// Every field of a certificate but length and version. No case is lent, so
/// neither prices nor quantities are judged.
pub fn read_certificate(file: &[u8], out: &mut [i64]) -> Result<usize, Refusal> {
    if file.len() < SHORTEST_CERTIFICATE || !layout::length_is_right(file) {
        return Err(Refusal::CertificateLength);
    }
    let version = layout::announced_version(file).ok_or(Refusal::CertificateVersion)?;
    let counts = layout::announced_counts(file).ok_or(Refusal::Counts)?;
    let fields = layout::certificate_fields(version, counts);
    if file.len() != layout::file_size(&fields) {
        return Err(Refusal::CertificateSize);
    }
    lend(&with_counts(counts, &layout::read_fields(file, &fields)), out)
}

pub fn write_case(numbers: &[i64], out: &mut [u8]) -> Result<usize, Refusal> {
    let (counts, rest) = counts_and_rest(numbers)?;
    let fields = layout::case_fields(WRITTEN, counts);
    check_fit(rest, &fields)?;
    check_case_numbers(WRITTEN, counts, rest, &fields)?;
    lend(&layout::write_fields(WRITTEN, counts, rest, &fields), out)
}

/// Any certificate that fits its fields can be written; the check judges it.
pub fn write_certificate(numbers: &[i64], out: &mut [u8]) -> Result<usize, Refusal> {
    let (counts, rest) = counts_and_rest(numbers)?;
    let fields = layout::certificate_fields(WRITTEN, counts);
    check_fit(rest, &fields)?;
    lend(&layout::write_fields(WRITTEN, counts, rest, &fields), out)
}

fn with_counts(counts: Counts, numbers: &[i64]) -> Vec<i64> {
    let counts = [counts.resources, counts.zones, counts.flowgates].map(|count| count as i64);
    [&counts, numbers].concat()
}

fn counts_and_rest(numbers: &[i64]) -> Result<(Counts, &[i64]), Refusal> {
    match numbers {
        [resources, zones, flowgates, rest @ ..] => {
            let counts =
                Counts::within_range(*resources, *zones, *flowgates).ok_or(Refusal::Counts)?;
            Ok((counts, rest))
        }
        _ => Err(Refusal::Numbers),
    }
}

/// As many numbers as fields, each within what its bytes can hold.
fn check_fit(numbers: &[i64], fields: &[Field]) -> Result<(), Refusal> {
    let fits = numbers.len() == fields.len()
        && fields.iter().zip(numbers).all(|(field, number)| field.width.holds(*number));
    if fits {
        Ok(())
    } else {
        Err(Refusal::Numbers)
    }
}

/// Copies a finished list to the front of the lent buffer, if it has room.
fn lend<T: Copy>(list: &[T], out: &mut [T]) -> Result<usize, Refusal> {
    let room = out.get_mut(..list.len()).ok_or(Refusal::BufferTooShort)?;
    room.copy_from_slice(list);
    Ok(list.len())
}
