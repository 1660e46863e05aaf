//! The case check, 1 to 7. Each stage looks at the whole file before the next
//! one looks at anything.

use crate::case::{Case, Limits, Resource, Step};
use crate::layout::{self, Counts, Version, SHORTEST_CASE};
use crate::refusal::Refusal;
use crate::units::Kw;

const MOST_ENERGY: Kw = 2_000_000;

/// The case in these bytes, or why they are not a valid one.
pub fn check_case(file: &[u8]) -> Result<Case, Refusal> {
    if file.len() < SHORTEST_CASE || !layout::length_is_right(file) {
        return Err(Refusal::CaseLength);
    }
    let version = layout::announced_version(file).ok_or(Refusal::CaseVersion)?;
    let counts = layout::announced_counts(file).ok_or(Refusal::Counts)?;
    let fields = layout::case_fields(version, counts);
    if file.len() != layout::file_size(&fields) {
        return Err(Refusal::CaseSize);
    }
    check_case_numbers(version, counts, &layout::read_fields(file, &fields), &fields)
}

/// Stages 5, 6 and 7, which look only at the numbers.
pub fn check_case_numbers(
    version: Version,
    counts: Counts,
    numbers: &[i64],
    fields: &[layout::Field],
) -> Result<Case, Refusal> {
    if !fields.iter().zip(numbers).all(|(field, number)| field.allows(*number)) {
        return Err(Refusal::FieldRange);
    }
    let case = Case::from_numbers(version, counts, numbers);
    if !steps_follow_their_rule(&case) {
        return Err(Refusal::StepRule);
    }
    if !case.resources.iter().all(limits_are_in_order) {
        return Err(Refusal::LimitPair);
    }
    Ok(case)
}

fn steps_follow_their_rule(case: &Case) -> bool {
    let never_rises = |earlier: &Step, later: &Step| later.price <= earlier.price;
    let never_falls = |earlier: &Step, later: &Step| later.price >= earlier.price;
    case.curves.iter().all(|curve| steps_are_in_order(curve, never_rises))
        && case.resources.iter().all(|resource| {
            steps_are_in_order(&resource.steps, never_falls) && energy_is_not_too_wide(resource)
        })
}

/// Steps of width 0 come last, with price 0; the others' prices are in order.
fn steps_are_in_order(steps: &[Step], prices_in_order: impl Fn(&Step, &Step) -> bool) -> bool {
    let empty_steps_are_free = steps.iter().all(|step| step.width > 0 || step.price == 0);
    let neighbours = steps.windows(2).all(|pair| match pair {
        [earlier, later] => {
            later.width == 0 || (earlier.width > 0 && prices_in_order(earlier, later))
        }
        _ => true,
    });
    empty_steps_are_free && neighbours
}

fn energy_is_not_too_wide(resource: &Resource) -> bool {
    resource.steps.iter().map(|step| step.width).sum::<Kw>() <= MOST_ENERGY
}

fn limits_are_in_order(resource: &Resource) -> bool {
    let in_order = |limits: &Limits| limits.minimum <= limits.maximum;
    in_order(&resource.economic) && in_order(&resource.regulating) && in_order(&resource.emergency)
}
