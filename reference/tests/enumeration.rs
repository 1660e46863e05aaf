//! Tiny cases with every schedule written down: no price vector may put the
//! bound above the cheapest of them.

use nostwier_reference::accounts::accounts;
use nostwier_reference::certificate::{accept, upper_bounds, Accepted};
use nostwier_reference::enumerate::{cheapest, schedule_count, step_to_next};
use nostwier_reference::generate::{pair_of_scale, Scale};
use nostwier_reference::layout::{Counts, Version};
use nostwier_reference::random::Random;
use nostwier_reference::rows::RowName;
use nostwier_reference::standing::standings;

const MOST_SCHEDULES: u128 = 150_000;

/// A tiny accepted pair that leaves a choice among few enough schedules, and
/// the cost of the cheapest.
fn tiny(random: &mut Random, resources: usize) -> (Accepted, i128) {
    loop {
        let counts = Counts {
            resources,
            zones: random.between(1, 2) as usize,
            flowgates: random.between(0, 2) as usize,
        };
        let pair = pair_of_scale(random, Version::ONE, counts, Scale::TINY);
        let bounds = upper_bounds(&pair.case, &standings(&pair.case));
        if !(200..=MOST_SCHEDULES).contains(&schedule_count(&bounds)) {
            continue;
        }
        let accepted = accept(&pair.case_file(), &pair.certificate_file()).expect("accepted");
        let (least, feasible) = cheapest(&pair.case, MOST_SCHEDULES).expect("its own schedule");
        if feasible > 1 {
            return (accepted, least);
        }
    }
}

fn bound(accepted: &Accepted) -> i128 {
    i128::from(accounts(accepted).expect("fits").bound)
}

/// Raises the bound by changing one price at a time, as far as that goes.
fn climb(accepted: &mut Accepted) -> i128 {
    let mut best = bound(accepted);
    loop {
        let before = best;
        for index in 0..accepted.certificate.row_prices.len() {
            let is_flowgate = matches!(accepted.rows[index].name, RowName::Flowgate(_));
            let unit = if is_flowgate { 1 } else { 1000 };
            for change in [-9, -3, -1, 1, 3, 9] {
                let old = accepted.certificate.row_prices[index];
                let new = old + change * unit;
                if new < 0 && index > 0 {
                    continue;
                }
                accepted.certificate.row_prices[index] = new;
                let its_bound = bound(accepted);
                if its_bound > best {
                    best = its_bound;
                } else {
                    accepted.certificate.row_prices[index] = old;
                }
            }
        }
        if best == before {
            return best;
        }
    }
}

#[test]
fn schedules_are_all_seen_once() {
    let bounds = [2, 0, 1];
    let mut amounts = [0; 3];
    let mut seen = vec![amounts];
    while step_to_next(&mut amounts, &bounds) {
        seen.push(amounts);
    }
    let expected = [[0, 0, 0], [0, 0, 1], [1, 0, 0], [1, 0, 1], [2, 0, 0], [2, 0, 1]];
    assert_eq!(seen, expected);
    assert_eq!(schedule_count(&bounds), 6);
}

#[test]
fn no_schedule_costs_less_than_cost_less_gap() {
    let mut random = Random::new(11);
    let mut dearer = 0;
    for index in 0..300 {
        let (accepted, least) = tiny(&mut random, 1 + index % 3);
        let accounts = accounts(&accepted).expect("fits");
        assert!(i128::from(accounts.cost - accounts.gap) <= least, "case {index}");
        assert!(least <= i128::from(accounts.cost), "case {index}");
        dearer += usize::from(least < i128::from(accounts.cost));
    }
    assert!(dearer > 100, "only {dearer} schedules are not the cheapest themselves");
}

#[test]
fn the_best_prices_do_not_lift_the_bound_above_the_cheapest_schedule() {
    let mut random = Random::new(12);
    let mut reached = 0;
    for index in 0..200 {
        let (mut accepted, least) = tiny(&mut random, 1 + index % 3);
        for price in &mut accepted.certificate.row_prices {
            *price = 0;
        }
        let best = climb(&mut accepted);
        assert!(best <= least, "case {index}: bound {best}, cheapest {least}");
        reached += usize::from(best == least);
    }
    // The bound is no idle one: often enough a plain climb reaches the cost.
    assert!(reached > 60, "reached in {reached} cases of 200");
}
