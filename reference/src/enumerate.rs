//! Every schedule of a case small enough to write them all down.

use crate::accounts::{cost, listed, listed_amounts};
use crate::case::Case;
use crate::certificate::{first_broken, upper_bounds};
use crate::rows::rows;
use crate::standing::standings;
use crate::units::{Grains, Kw};

/// How many schedules lie within these bounds, rows not yet looked at.
pub fn schedule_count(bounds: &[Kw]) -> u128 {
    bounds.iter().fold(1u128, |count, bound| count.saturating_mul(*bound as u128 + 1))
}

/// Steps to the next schedule, the last quantity turning fastest; false when
/// all have been seen.
pub fn step_to_next(amounts: &mut [Kw], bounds: &[Kw]) -> bool {
    for (amount, bound) in amounts.iter_mut().zip(bounds).rev() {
        if *amount < *bound {
            *amount += 1;
            return true;
        }
        *amount = 0;
    }
    false
}

/// The cost of the cheapest schedule that keeps every row, and how many do;
/// None if none does, or if there are more than `most` to look at.
pub fn cheapest(case: &Case, most: u128) -> Option<(Grains, usize)> {
    let standings = standings(case);
    let bounds = upper_bounds(case, &standings);
    if schedule_count(&bounds) > most {
        return None;
    }
    let rows = rows(case, &standings);
    let listed = listed(case, &standings);
    let mut amounts = vec![0; bounds.len()];
    let mut least: Option<Grains> = None;
    let mut feasible = 0;
    loop {
        if first_broken(&rows, &amounts).is_none() {
            feasible += 1;
            let its_cost = cost(&listed, &listed_amounts(case, &amounts));
            least = Some(least.map_or(its_cost, |least| least.min(its_cost)));
        }
        if !step_to_next(&mut amounts, &bounds) {
            break;
        }
    }
    least.map(|least| (least, feasible))
}
