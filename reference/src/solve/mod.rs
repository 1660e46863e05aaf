//! From a case to a certificate by way of a solver of linear programmes: what
//! a member does with a solver of his own.

pub mod command;
pub mod mps;
pub mod programme;
pub mod progress;
pub mod rounding;
pub mod solver;

use crate::accounts::accounts;
use crate::case::Case;
use crate::certificate::{accept, Certificate};
use crate::generate::Pair;
use crate::operations::Totals;
use crate::standing::{standings, Product};
use programme::Programme;
use solver::{Call, Solution, Unsolved};

/// A certificate that the check accepts, with its totals.
#[derive(Clone, Debug)]
pub struct Solved {
    pub certificate: Certificate,
    pub totals: Totals,
    /// What the user should know of the way here: a line each.
    pub remarks: Vec<String>,
}

/// Solves a valid case.
pub fn solve(case: &Case, call: &Call) -> Result<Solved, Unsolved> {
    let programme = Programme::of_case(case);
    let relaxed = call.linear(&programme, "relaxed").map_err(|why| match why {
        Unsolved::NoSchedule(line) => Unsolved::NoSchedule(line + &why_none(case)),
        other => other,
    })?;
    let (schedules, remarks) = whole_schedules(case, &programme, &relaxed, call)?;
    let mut prices = vec![programme.whole_prices(&relaxed.duals)];
    prices.extend(better_prices(&programme, &relaxed, call)?);
    let mut best: Option<Solved> = None;
    for amounts in &schedules {
        for row_prices in &prices {
            let other = judged(case, amounts, row_prices.clone())?;
            if best.as_ref().is_none_or(|best| other.totals.gap < best.totals.gap) {
                best = Some(other);
            }
        }
    }
    match best {
        Some(best) => Ok(Solved { remarks, ..best }),
        None => Err(Unsolved::NotFound("there is no schedule to judge".to_string())),
    }
}

/// Whole kW that keep every row: near what the solver finds in whole numbers,
/// if it has a way to them, and near its solution with fractions. Neither is
/// always the cheaper one: a solver may be stopped before it has the best, and
/// mending a rounded schedule goes by rows and not by cost.
fn whole_schedules(
    case: &Case,
    programme: &Programme,
    relaxed: &Solution,
    call: &Call,
) -> Result<(Vec<Vec<i64>>, Vec<String>), Unsolved> {
    let near = |solution: &Solution| {
        let rounded = programme.rounded_amounts(&solution.values);
        let amounts = rounding::repaired(programme, rounded)?;
        Ok(rounding::cleared_to_the_full(case, programme, amounts))
    };
    let whole = call.whole(programme, "whole")?;
    let of_whole: Option<Result<Vec<i64>, String>> = whole.solution.as_ref().map(near);
    let of_relaxed = call.progress.during("rounding", None, || near(relaxed));
    let remarks = if whole.stopped {
        let found = if whole.solution.is_some() {
            "before it was sure of the cheapest schedule in whole kW"
        } else {
            "before it had found a schedule in whole kW"
        };
        vec![format!("{} {found}; --seconds N gives it more", call.stopped())]
    } else {
        Vec::new()
    };
    let (found, missed): (Vec<_>, Vec<_>) =
        of_whole.into_iter().chain([of_relaxed]).partition(Result::is_ok);
    let schedules: Vec<Vec<i64>> = found.into_iter().flatten().collect();
    if !schedules.is_empty() {
        return Ok((schedules, remarks));
    }
    let line = missed.into_iter().find_map(Result::err).unwrap_or_default();
    Err(Unsolved::NotFound(remarks.into_iter().chain([line]).collect::<Vec<_>>().join("; ")))
}

/// What most often keeps a case from having a schedule: resources that are not
/// on-line, and a demand beyond what the others can give within the interval.
fn why_none(case: &Case) -> String {
    let standings = standings(case);
    let online: Vec<_> = standings.iter().filter(|standing| standing.is_online()).collect();
    let most: i64 = online
        .iter()
        .map(|standing| {
            standing.maximum.min(standing.high).min(standing.bound(Product::Energy)).max(0)
        })
        .sum();
    let least: i64 = online.iter().map(|standing| standing.minimum.max(standing.low)).sum();
    let off: Vec<String> = (1..)
        .zip(&standings)
        .filter(|(_, standing)| !standing.is_online())
        .map(|(number, _)| number.to_string())
        .collect();
    let off = if off.is_empty() { "none".to_string() } else { off.join(", ") };
    format!(
        ". Demand is {} kW; the resources that are on-line can give {least} to {most} kW in this \
         interval. Not on-line: {off} (docs/MODEL.md says when a resource is)",
        case.demand
    )
}

/// Prices worth trying where duals do not go over into prices as they are:
/// those found within the range that prices have; and, since whole cents are
/// coarse, those found with the flowgates' prices held at whole cents.
fn better_prices(
    programme: &Programme,
    relaxed: &Solution,
    call: &Call,
) -> Result<Vec<Vec<i64>>, Unsolved> {
    let prices = programme.whole_prices(&relaxed.duals);
    let far = |row: usize| (relaxed.duals[row] - prices[row] as f64).abs();
    let all_in_range = (0..prices.len()).all(|row| far(row) <= 0.5);
    let flowgates_whole = programme.flowgate_rows().all(|row| far(row) < 1e-6);
    if all_in_range && flowgates_whole {
        return Ok(Vec::new());
    }
    let priced = programme.priced();
    let in_range = priced.whole_prices(&call.linear(&priced, "priced")?.duals);
    let held = priced.with_flowgate_prices(&in_range);
    let mut beside_held = held.whole_prices(&call.linear(&held, "held")?.duals);
    for row in programme.flowgate_rows() {
        beside_held[row] = in_range[row];
    }
    Ok(vec![in_range, beside_held])
}

/// The certificate of a schedule and prices, as the check judges it.
fn judged(case: &Case, amounts: &[i64], row_prices: Vec<i64>) -> Result<Solved, Unsolved> {
    let Case { version, counts, .. } = *case;
    let certificate = Certificate { version, counts, amounts: amounts.to_vec(), row_prices };
    let pair = Pair { case: case.clone(), certificate };
    let accepted = accept(&pair.case_file(), &pair.certificate_file())
        .map_err(|refusal| format!("the certificate would be refused: {refusal}"))
        .map_err(Unsolved::NotFound)?;
    let accounts =
        accounts(&accepted).map_err(|failure| Unsolved::NotFound(failure.to_string()))?;
    let totals = Totals { cost: accounts.cost, bound: accounts.bound, gap: accounts.gap };
    Ok(Solved { certificate: pair.certificate, totals, remarks: Vec::new() })
}
