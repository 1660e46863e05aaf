//! What must hold of every accepted pair: the charges are none below 0, their
//! sum is the gap, and no feasible schedule costs less than the bound.

mod common;

use nostwier_reference::accounts::{accounts, cost, listed, listed_amounts, Accounts};
use nostwier_reference::case::{flag, Case, Curve, Flowgate, Kind, Step};
use nostwier_reference::certificate::{accept, first_above_bound, first_broken, Accepted};
use nostwier_reference::generate::{
    full_pair, pair_of_counts, pair_of_scale, random_pair, varied_pair, Pair, Scale,
};
use nostwier_reference::layout::{
    case_fields, Counts, Version, CURVES, MOST_FLOWGATES, MOST_RESOURCES, MOST_ZONES,
};
use nostwier_reference::prices::lmps;
use nostwier_reference::random::Random;
use nostwier_reference::rows::{
    index_of, index_of_cleared, quantities, row_names, Quantity, RowName,
};
use nostwier_reference::standing::{standings, OperatingState, Product, PRODUCTS};
use nostwier_reference::worked;
use std::collections::{BTreeMap, BTreeSet};

fn accepted(pair: &Pair) -> Accepted {
    accept(&pair.case_file(), &pair.certificate_file()).expect("accepted")
}

fn assert_charges_make_the_gap(accepted: &Accepted) -> Accounts {
    let accounts = accounts(accepted).expect("every number fits");
    let Case { version, counts, .. } = accepted.case;
    assert_eq!(accounts.charges.len(), counts.charge_count(version));
    assert!(accounts.charges.iter().all(|charge| *charge >= 0));
    let sum: i128 = accounts.charges.iter().map(|charge| i128::from(*charge)).sum();
    assert_eq!(sum, i128::from(accounts.gap));
    assert_eq!(accounts.cost - accounts.bound, accounts.gap);
    accounts
}

/// Another schedule near this one, feasible or not.
fn neighbour(random: &mut Random, accepted: &Accepted, amounts: &[i64]) -> Vec<i64> {
    let mut other = amounts.to_vec();
    let online: Vec<usize> = (0..accepted.standings.len())
        .filter(|index| accepted.standings[*index].is_online())
        .collect();
    if !online.is_empty() && random.percent(60) {
        let (from, to) = (random.pick(&online), random.pick(&online));
        let [from, to] =
            [from, to].map(|index| index_of(accepted.case.version, index, Product::Energy));
        let part = random.between(1, 50);
        let moved = random.between(1, 1 + other[from] / part);
        other[from] -= moved;
        other[to] += moved;
    }
    if random.percent(60) {
        let index = random.index(other.len());
        let quantity = quantities(accepted.case.version, accepted.case.counts)[index];
        if !matches!(quantity, Quantity::Of(_, Product::Energy)) {
            other[index] = random.between(0, 2 * other[index] + 10);
        }
    }
    other
}

fn is_feasible(accepted: &Accepted, amounts: &[i64]) -> bool {
    amounts.iter().all(|amount| *amount >= 0)
        && first_above_bound(&accepted.case, &accepted.standings, amounts).is_none()
        && first_broken(&accepted.rows, amounts).is_none()
}

#[test]
fn charges_make_the_gap_and_other_schedules_cost_no_less_than_the_bound() {
    let mut random = Random::new(21);
    let mut others = 0;
    for _ in 0..250 {
        let accepted = accepted(&random_pair(&mut random));
        let bound = assert_charges_make_the_gap(&accepted).bound;
        let listed = listed(&accepted.case, &accepted.standings);
        let mut amounts = accepted.certificate.amounts.clone();
        for _ in 0..400 {
            let other = neighbour(&mut random, &accepted, &amounts);
            if other != amounts && is_feasible(&accepted, &other) {
                let its_cost = cost(&listed, &listed_amounts(&accepted.case, &other));
                assert!(its_cost >= i128::from(bound));
                others += 1;
                amounts = other;
            }
        }
    }
    assert!(others > 2000, "only {others} other schedules were met");
}

#[test]
fn the_cost_does_not_hang_on_the_prices() {
    let mut random = Random::new(22);
    for _ in 0..100 {
        let mut accepted = accepted(&random_pair(&mut random));
        let before = accounts(&accepted).expect("fits").cost;
        for (index, price) in accepted.certificate.row_prices.iter_mut().enumerate() {
            let least = if index == 0 { -400_000 } else { 0 };
            *price = random.edgy(least, 400_000);
        }
        assert_eq!(assert_charges_make_the_gap(&accepted).cost, before);
    }
}

/// The cost met kW by kW: each takes the first step with room.
fn cost_by_the_kw(steps: &[Step], amount: i64) -> i64 {
    let mut room: Vec<i64> = steps.iter().map(|step| step.width).collect();
    let mut sum = 0;
    for _ in 0..amount {
        let first = room.iter().position(|room| *room > 0).expect("within its bound");
        room[first] -= 1;
        sum += steps[first].price;
    }
    sum
}

#[test]
fn the_cost_is_met_kw_by_kw() {
    let mut random = Random::new(23);
    let mut not_zero = 0;
    for _ in 0..200 {
        let counts = Counts { resources: 5, zones: 2, flowgates: 1 };
        let accepted = accepted(&pair_of_scale(&mut random, Version::ONE, counts, Scale::SMALL));
        let amounts = &accepted.certificate.amounts;
        let mut sum = 0;
        for (index, resource) in accepted.case.resources.iter().enumerate() {
            let of = |product| amounts[index_of(Version::ONE, index, product)];
            sum += cost_by_the_kw(&resource.steps, of(Product::Energy));
            sum += of(Product::Regulating) * resource.regulating_price;
            sum += of(Product::Contingency) * resource.contingency_price;
            sum += of(Product::OfflineShortTerm) * resource.offline_short_term_price;
        }
        for curve in Curve::of(Version::ONE) {
            let cleared = amounts[index_of_cleared(Version::ONE, curve)];
            sum -= cost_by_the_kw(&accepted.case.curves[curve as usize], cleared);
        }
        assert_eq!(accounts(&accepted).expect("fits").cost, 1000 * sum);
        not_zero += usize::from(sum != 0);
    }
    assert!(not_zero > 100);
}

const LARGEST: Counts =
    Counts { resources: MOST_RESOURCES, zones: MOST_ZONES, flowgates: MOST_FLOWGATES };

/// The widest case there is: every figure and price at an end of its range.
fn widest(factor: i64, energy_price: i64, row_price: i64) -> Pair {
    let mut pair = pair_of_scale(&mut Random::new(24), Version::ONE, LARGEST, Scale::FULL);
    for resource in &mut pair.case.resources {
        let mut widest = worked::pair().case.resources.remove(0);
        widest.zone = resource.zone;
        widest.economic = nostwier_reference::case::Limits { minimum: 0, maximum: 2_000_000 };
        (widest.ramp_up, widest.ramp_down) = (400_000, 400_000);
        widest.initial = 2_000_000;
        widest.steps = [Step { width: 200_000, price: energy_price }; 10];
        *resource = widest;
    }
    let limit = if factor > 0 { 20_000_000 } else { -20_000_000 };
    let flowgate = Flowgate { limit, factors: vec![factor; LARGEST.resources] };
    pair.case.flowgates = vec![flowgate; LARGEST.flowgates];
    pair.case.zones = vec![[0; CURVES]; LARGEST.zones];
    // Factors above 0 let only a part of the energy through.
    let energy = if factor > 0 { 300_000 } else { 2_000_000 };
    pair.case.demand = LARGEST.resources as i64 * energy;
    pair.certificate.amounts = vec![0; LARGEST.place_count(Version::ONE)];
    for resource in 0..LARGEST.resources {
        pair.certificate.amounts[index_of(Version::ONE, resource, Product::Energy)] = energy;
    }
    let names = row_names(Version::ONE, LARGEST);
    for (price, name) in pair.certificate.row_prices.iter_mut().zip(names) {
        *price = match name {
            RowName::Demand => row_price,
            RowName::Flowgate(_) => 400_000,
            _ => 400_000_000,
        };
    }
    pair
}

#[test]
fn the_widest_figures_fit_64_bits() {
    for factor in [-1000, 1000] {
        for energy_price in [-400_000, 400_000] {
            for row_price in [-400_000_000, 400_000_000] {
                let pair = widest(factor, energy_price, row_price);
                let accepted = accepted(&pair);
                assert_charges_make_the_gap(&accepted);
                let lmp = row_price - 12 * 400_000 * factor;
                assert_eq!(lmps(&accepted), Ok(vec![lmp; 64]));
            }
        }
    }
    // 400,000,000 and 12 times 400,000 cents at a factor of a whole.
    let lowest = lmps(&accepted(&widest(1000, 400_000, -400_000_000)));
    assert_eq!(lowest, Ok(vec![-5_200_000_000; 64]));
    let highest = lmps(&accepted(&widest(-1000, 400_000, 400_000_000)));
    assert_eq!(highest, Ok(vec![5_200_000_000; 64]));
}

#[test]
fn generated_cases_show_every_kind_of_standing() {
    let mut random = Random::new(25);
    let mut states: BTreeMap<&str, usize> = BTreeMap::new();
    let mut spinning = 0;
    let mut products = [0; PRODUCTS];
    let mut cleared = 0;
    for _ in 0..100 {
        let counts = Counts { resources: 10, zones: 3, flowgates: 2 };
        let pair = pair_of_counts(&mut random, Version::ONE, counts);
        for standing in standings(&pair.case) {
            let state = match standing.state {
                OperatingState::Online => "on-line",
                OperatingState::Offline => "off-line",
                OperatingState::Tripped => "tripped",
            };
            *states.entry(state).or_default() += 1;
            spinning += usize::from(standing.spinning);
        }
        let quantities = quantities(Version::ONE, counts);
        for (quantity, amount) in quantities.into_iter().zip(&pair.certificate.amounts) {
            match quantity {
                Quantity::Cleared(_) => cleared += usize::from(*amount > 0),
                Quantity::Of(_, product) => products[product as usize] += usize::from(*amount > 0),
            }
        }
    }
    assert!(states["on-line"] > 300 && states["off-line"] > 200, "{states:?}");
    assert!(states["tripped"] > 50 && spinning > 100, "{states:?} {spinning}");
    assert!(cleared > 100, "{cleared}");
    assert!(products.iter().all(|count| *count > 50), "{products:?}");
}

/// Self-schedules of on-line resources on each side of what LO is made of, so
/// that a wrong LO shows when another implementation is run on such cases.
#[test]
fn generated_self_schedules_stand_on_every_side_of_floor_high_and_maximum() {
    let mut random = Random::new(28);
    let mut met: BTreeMap<&str, usize> = BTreeMap::new();
    for _ in 0..200 {
        let pair = varied_pair(
            &mut random,
            Version::ONE,
            Counts { resources: 10, zones: 3, flowgates: 2 },
        );
        let accepted = accepted(&pair);
        for (resource, standing) in pair.case.resources.iter().zip(&accepted.standings) {
            if !standing.is_online() || !resource.has_flag(flag::SELF_SCHEDULED) {
                continue;
            }
            let floor = resource.initial - 5 * resource.ramp_down;
            let side = match resource.self_schedule {
                own if own < floor => "below the floor",
                own if own > standing.high.max(standing.maximum) => "above HI and MAX",
                own if own > standing.high => "above HI alone",
                own if own > standing.maximum => "above MAX alone",
                _ => "in reach",
            };
            *met.entry(side).or_default() += 1;
        }
    }
    assert!(met.len() == 5 && met.values().all(|count| *count > 10), "{met:?}");
}

/// Trips on both sides of 15 minutes, with and without breaker, output and
/// off-line offers, so that a wrong rule for tripped resources shows when another
/// implementation is run on such cases (02, request 2).
#[test]
fn generated_trips_stand_on_both_sides_of_fifteen_minutes() {
    let mut random = Random::new(29);
    let mut met: BTreeMap<(i64, &str), usize> = BTreeMap::new();
    for _ in 0..400 {
        let pair = varied_pair(
            &mut random,
            Version::ONE,
            Counts { resources: 10, zones: 3, flowgates: 2 },
        );
        accepted(&pair);
        for resource in &pair.case.resources {
            let trip = resource.minutes_since_trip;
            let offers = flag::OFFLINE_SUPPLEMENTAL | flag::OFFLINE_SHORT_TERM;
            let runs = match (resource.kind, resource.breaker_closed) {
                (Kind::Intermittent, _) => "intermittent",
                (Kind::ExternalAsynchronous, _) => "external",
                (_, true) if resource.output.abs() >= 500 => "closed, with output",
                _ if resource.flags & offers != offers => continue,
                (_, true) => "closed, without output, with offers",
                (_, false) => "open, with offers",
            };
            if [0, 14, 15, 16].contains(&trip) {
                *met.entry((trip, runs)).or_default() += 1;
            }
        }
    }
    assert!(met.len() == 4 * 5 && met.values().all(|count| *count > 10), "{met:?}");
}

#[test]
fn generated_cases_reach_both_ends_of_every_range() {
    let mut random = Random::new(26);
    let mut ends: BTreeMap<&str, (bool, bool)> = BTreeMap::new();
    let mut sizes = BTreeSet::new();
    for _ in 0..3000 {
        let pair = random_pair(&mut random);
        let (version, counts) = (pair.case.version, pair.case.counts);
        sizes.insert((counts.resources, counts.zones, counts.flowgates));
        for (field, number) in case_fields(version, counts).iter().zip(pair.case.numbers()) {
            let (least, most) = ends.entry(field.name).or_default();
            *least |= number == field.least;
            *most |= number == field.most;
        }
    }
    let missed: Vec<_> = ends.iter().filter(|(_, ends)| **ends != (true, true)).collect();
    assert!(missed.is_empty(), "{missed:?}");
    assert!(sizes.contains(&(MOST_RESOURCES, MOST_ZONES, MOST_FLOWGATES)));
    assert!(sizes.contains(&(1, 1, 0)));
    assert!(sizes.len() > 500, "{} sizes", sizes.len());
}

#[test]
fn full_pairs_are_accepted_and_fit() {
    let mut random = Random::new(27);
    for index in 0..60 {
        let (zones, flowgates) = (1 + index % MOST_ZONES, index % (MOST_FLOWGATES + 1));
        let counts = Counts { resources: MOST_RESOURCES, zones, flowgates };
        let accepted = accepted(&full_pair(&mut random, Version::ONE, counts));
        assert_charges_make_the_gap(&accepted);
    }
}
