//! The worked interval K of the paper, with its certificate: pair (a).

use crate::case::{Case, Kind, Limits, Reserve, Resource, Step};
use crate::certificate::Certificate;
use crate::generate::Pair;
use crate::layout::{Counts, Version, CURVES, CURVE_STEPS, ENERGY_STEPS};
use crate::rows::index_of;
use crate::standing::Product;

pub fn pair() -> Pair {
    let version = Version::ONE;
    let counts = Counts { resources: 1, zones: 1, flowgates: 0 };
    let reserve = Reserve { multiplier: 1000, minutes: 10, share: 0, requirement: 0 };
    let case = Case {
        version,
        counts,
        demand: 60_000,
        contingency: reserve,
        regulating: reserve,
        short_term: reserve,
        curves: [[Step::default(); CURVE_STEPS]; CURVES],
        zones: vec![[0; CURVES]],
        resources: vec![resource()],
        flowgates: Vec::new(),
    };
    let mut amounts = vec![0; counts.place_count(version)];
    amounts[index_of(version, 0, Product::Energy)] = 60_000;
    let mut row_prices = vec![0; counts.row_count(version)];
    row_prices[0] = 3_000_000;
    Pair { case, certificate: Certificate { version, counts, amounts, row_prices } }
}

fn resource() -> Resource {
    let mut steps = [Step::default(); ENERGY_STEPS];
    steps[0] = Step { width: 40_000, price: 2_000 };
    steps[1] = Step { width: 60_000, price: 3_000 };
    Resource {
        kind: Kind::Conventional,
        zone: 1,
        breaker_closed: true,
        status: 0,
        minutes_since_trip: 255,
        flags: 0,
        output: 50_000,
        economic: Limits { minimum: 20_000, maximum: 100_000 },
        regulating: Limits::default(),
        emergency: Limits::default(),
        ramp_up: 3_000,
        ramp_down: 3_000,
        ramp_rate: 3_000,
        initial: 50_000,
        offline_response: 0,
        offline_short_term: 0,
        self_schedule: 0,
        regulating_price: 0,
        contingency_price: 0,
        offline_short_term_price: 0,
        steps,
    }
}
