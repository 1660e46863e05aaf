//! The reference's calls with the library's C interface, under the names `reference_...`.

use nostwier_reference::{charges, check_certificate, prices, Failure};
use std::slice::{from_raw_parts, from_raw_parts_mut};

#[repr(C)]
pub struct Answer {
    refusal: u32,
    place: u32,
}

#[repr(C)]
pub struct CheckResult {
    answer: Answer,
    cost: i64,
    bound: i64,
    gap: i64,
}

const SUCCESS: Answer = Answer { refusal: 0, place: 0 };

/// A number that does not fit has no number of its own; the reference never met one.
fn refused(failure: Failure) -> Answer {
    match failure {
        Failure::Refused(why) => {
            Answer { refusal: why.number(), place: why.place().unwrap_or(0) as u32 }
        }
        Failure::DoesNotFit(_) => Answer { refusal: u32::MAX, place: 0 },
    }
}

/// # Safety
/// As `include/nostwier.h` says of a host.
#[no_mangle]
pub unsafe extern "C" fn reference_check_certificate(
    c: *const u8,
    cn: usize,
    q: *const u8,
    qn: usize,
) -> CheckResult {
    match check_certificate(from_raw_parts(c, cn), from_raw_parts(q, qn)) {
        Ok(all) => CheckResult { answer: SUCCESS, cost: all.cost, bound: all.bound, gap: all.gap },
        Err(failure) => CheckResult { answer: refused(failure), cost: 0, bound: 0, gap: 0 },
    }
}

/// # Safety
/// As `include/nostwier.h` says of a host.
#[no_mangle]
pub unsafe extern "C" fn reference_prices(
    c: *const u8,
    cn: usize,
    q: *const u8,
    qn: usize,
    out: *mut i64,
    n: usize,
) -> Answer {
    let out = from_raw_parts_mut(out, n);
    prices(from_raw_parts(c, cn), from_raw_parts(q, qn), out).map_or_else(refused, |_| SUCCESS)
}

/// # Safety
/// As `include/nostwier.h` says of a host.
#[no_mangle]
pub unsafe extern "C" fn reference_charges(
    c: *const u8,
    cn: usize,
    q: *const u8,
    qn: usize,
    out: *mut i64,
    n: usize,
) -> Answer {
    let out = from_raw_parts_mut(out, n);
    charges(from_raw_parts(c, cn), from_raw_parts(q, qn), out).map_or_else(refused, |_| SUCCESS)
}
