//! The paper's definitions one by one, with figures worked out by hand.

mod common;

use common::{check, program_text, refused};
use nostwier_reference::accounts::accounts;
use nostwier_reference::case::{flag, status, Case, Flowgate, Kind, Limits, Reserve, Resource};
use nostwier_reference::certificate::accept;
use nostwier_reference::generate::Pair;
use nostwier_reference::layout::{case_fields, certificate_fields, Counts, Field, Version, CURVES};
use nostwier_reference::rows::rows;
use nostwier_reference::standing::{
    operating_state, standing, standings, OperatingState, Product, Standing, PRODUCTS,
};
use nostwier_reference::{charges, prices, worked, Refusal, Totals};

/// K with its one resource changed.
fn changed(change: impl Fn(&mut Resource)) -> Case {
    let mut case = worked::pair().case;
    change(&mut case.resources[0]);
    case
}

fn of(case: &Case) -> Standing {
    standing(case, &case.resources[0])
}

/// Its upper bounds of e, g, c, s and o.
fn bounds_of(case: &Case) -> Vec<i64> {
    Product::of(case.version).map(|product| of(case).bound(product)).collect()
}

#[test]
fn what_is_on_line() {
    use Kind::{Conventional, ExternalAsynchronous, Intermittent};
    use OperatingState::{Offline, Online, Tripped};
    let all = status::COMMITTED | status::AVAILABLE | status::ACTIVE_SCHEDULE;
    let active = status::AVAILABLE | status::ACTIVE_SCHEDULE;
    for (kind, closed, bits, output, state) in [
        // Status says nothing of a conventional resource.
        (Conventional, true, 0, 500, Online),
        (Conventional, true, 0, -500, Online),
        (Conventional, true, all, 499, Offline),
        (Conventional, true, all, -499, Offline),
        (Conventional, false, all, 500, Offline),
        (Intermittent, true, status::COMMITTED, 1, Online),
        (Intermittent, true, status::COMMITTED, 0, Offline),
        (Intermittent, true, status::COMMITTED, -600, Offline),
        (Intermittent, true, active, 600, Offline),
        (Intermittent, false, all, 600, Offline),
        (ExternalAsynchronous, true, active, 0, Online),
        (ExternalAsynchronous, true, active, -5, Online),
        (ExternalAsynchronous, true, status::AVAILABLE, 600, Offline),
        (ExternalAsynchronous, true, status::ACTIVE_SCHEDULE, 600, Offline),
        (ExternalAsynchronous, true, status::COMMITTED, 600, Offline),
        (ExternalAsynchronous, false, all, 600, Offline),
    ] {
        for trip in [0, 15, 16, 255] {
            let case = changed(|resource| {
                resource.kind = kind;
                resource.breaker_closed = closed;
                resource.status = bits;
                resource.minutes_since_trip = trip;
                resource.output = output;
            });
            // Request 2: a trip says nothing of the other kinds.
            let expected = if kind == Conventional && trip < 16 { Tripped } else { state };
            let what = format!("{kind:?} {closed} status {bits} trip {trip} output {output}");
            assert_eq!(operating_state(&case.resources[0]), expected, "{what}");
        }
    }
}

/// Request 2, on both sides of 15 minutes.
#[test]
fn what_is_tripped() {
    use Kind::{Conventional, ExternalAsynchronous, Intermittent};
    use OperatingState::{Offline, Online, Tripped};
    for (kind, trip, closed, output, state) in [
        (Conventional, 15, true, 50_000, Tripped),
        (Conventional, 16, true, 50_000, Online),
        (Conventional, 15, false, 50_000, Tripped),
        (Conventional, 16, false, 50_000, Offline),
        (Conventional, 15, true, 0, Tripped),
        (Conventional, 16, true, 0, Offline),
        (Conventional, 0, false, 0, Tripped),
        (Conventional, 0, true, 50_000, Tripped),
        (Conventional, 14, true, -500, Tripped),
        (Conventional, 255, true, 50_000, Online),
        (Intermittent, 0, true, 50_000, Online),
        (Intermittent, 0, false, 50_000, Offline),
        (ExternalAsynchronous, 0, true, 50_000, Online),
        (ExternalAsynchronous, 0, false, 50_000, Offline),
    ] {
        let case = changed(|resource| {
            resource.kind = kind;
            resource.breaker_closed = closed;
            resource.status = 7;
            resource.minutes_since_trip = trip;
            resource.output = output;
        });
        let what = format!("{kind:?} trip {trip} closed {closed} output {output}");
        assert_eq!(operating_state(&case.resources[0]), state, "{what}");
    }
}

#[test]
fn emergency_limits_go_before_regulating_and_those_before_economic() {
    let both = flag::EMERGENCY_MAXIMUM | flag::EMERGENCY_MINIMUM;
    for (flags, minimum, maximum) in [
        (0, 20, 100),
        (flag::REGULATING, 30, 90),
        (flag::EMERGENCY_MAXIMUM, 20, 120),
        (flag::EMERGENCY_MINIMUM, 10, 100),
        (both, 10, 120),
        (flag::REGULATING | flag::EMERGENCY_MAXIMUM, 30, 120),
        (flag::REGULATING | flag::EMERGENCY_MINIMUM, 10, 90),
        (flag::REGULATING | both, 10, 120),
        (255 - flag::REGULATING - both, 20, 100),
    ] {
        let case = changed(|resource| {
            resource.economic = Limits { minimum: 20, maximum: 100 };
            resource.regulating = Limits { minimum: 30, maximum: 90 };
            resource.emergency = Limits { minimum: 10, maximum: 120 };
            resource.flags = flags;
        });
        assert_eq!((of(&case).minimum, of(&case).maximum), (minimum, maximum), "flags {flags}");
        let mut offline = case;
        offline.resources[0].breaker_closed = false;
        assert_eq!((of(&offline).minimum, of(&offline).maximum), (0, 100), "flags {flags}");
    }
}

#[test]
fn high_and_low_follow_ramps_and_self_schedule() {
    for (flags, self_schedule, initial, low, high) in [
        (0, 0, 50_000, 50_000 - 5 * 2_000, 50_000 + 5 * 3_000),
        (0, 48_000, 50_000, 40_000, 65_000),
        (flag::SELF_SCHEDULED, 48_000, 50_000, 48_000, 65_000),
        (flag::SELF_SCHEDULED, 39_999, 50_000, 40_000, 65_000),
        (flag::SELF_SCHEDULED, 70_000, 50_000, 65_000, 65_000),
        (0, 0, 9_999, 0, 24_999),
        (flag::SELF_SCHEDULED, 7, 0, 7, 15_000),
    ] {
        let mut case = changed(|resource| {
            resource.ramp_up = 3_000;
            resource.ramp_down = 2_000;
            resource.ramp_rate = 1;
            resource.initial = initial;
            resource.flags = flags;
            resource.self_schedule = self_schedule;
        });
        assert_eq!((of(&case).low, of(&case).high), (low, high));
        case.resources[0].breaker_closed = false;
        assert_eq!((of(&case).low, of(&case).high), (0, 100_000));
    }
}

/// K, where HI is 65,000 and the ramp's floor 35,000, with another economic
/// maximum and a self-schedule.
fn self_scheduled(maximum: i64, self_schedule: i64) -> Case {
    changed(|resource| {
        resource.economic.maximum = maximum;
        resource.self_schedule = self_schedule;
        resource.flags = flag::SELF_SCHEDULED;
    })
}

/// Request 6.
#[test]
fn a_self_schedule_out_of_reach_yields() {
    for (maximum, self_schedule, low) in [
        // HI is the least: first the request's own unit.
        (100_000, 80_000, 65_000),
        (100_000, 65_001, 65_000),
        (100_000, 120_000, 65_000),
        // MAX is the least, the self-schedule below HI or above.
        (60_000, 60_001, 60_000),
        (60_000, 80_000, 60_000),
        // The self-schedule is the least.
        (100_000, 64_999, 64_999),
        (60_000, 59_999, 59_999),
        (100_000, 35_001, 35_001),
        // The floor lies above the least, be that the self-schedule or MAX.
        (100_000, 34_999, 35_000),
        (34_999, 80_000, 35_000),
    ] {
        let mut case = self_scheduled(maximum, self_schedule);
        let what = format!("MAX {maximum}, self-schedule {self_schedule}");
        assert_eq!((of(&case).high, of(&case).maximum), (65_000, maximum), "{what}");
        assert_eq!(of(&case).low, low, "{what}");
        case.resources[0].flags = 0;
        assert_eq!(of(&case).low, 35_000, "{what}, without the flag");
        case.resources[0].flags = flag::SELF_SCHEDULED;
        case.resources[0].breaker_closed = false;
        assert_eq!(of(&case).low, 0, "{what}, off-line");
    }
}

#[test]
fn a_self_schedule_yields_to_the_maximum_in_force() {
    for (flags, low) in [(0, 60_000), (flag::REGULATING, 58_000), (flag::EMERGENCY_MAXIMUM, 62_000)]
    {
        let mut case = self_scheduled(60_000, 80_000);
        case.resources[0].regulating.maximum = 58_000;
        case.resources[0].emergency.maximum = 62_000;
        case.resources[0].flags |= flags;
        assert_eq!(of(&case).low, low, "flags {flags}");
    }
}

/// Row 14 is K's e >= LO.
#[test]
fn a_self_schedule_out_of_reach_asks_for_all_that_is_in_reach() {
    for (maximum, most) in [(100_000, 65_000), (60_000, 60_000)] {
        let mut pair = worked::pair();
        pair.case = self_scheduled(maximum, 80_000);
        for (energy, broken) in [(most, None), (most - 1, Some(14))] {
            pair.case.demand = energy;
            pair.certificate.amounts[4] = energy;
            let answer = check(&pair).map(|_| ());
            let expected = broken.map_or(Ok(()), |row| refused(Refusal::Row { row }));
            assert_eq!(answer, expected, "MAX {maximum}, e {energy}");
        }
    }
}

/// Reserves whose every figure differs: RAMP is 50 x ramp rate for regulating,
/// 30 x for contingency, 20 x for short-term; SHARE is 700, 800 and 900.
fn with_reserves(change: impl Fn(&mut Resource)) -> Case {
    let mut case = changed(change);
    case.regulating = Reserve { multiplier: 100, minutes: 5, share: 100, requirement: 7_009 };
    case.contingency = Reserve { multiplier: 200, minutes: 6, share: 200, requirement: 4_004 };
    case.short_term = Reserve { multiplier: 500, minutes: 10, share: 300, requirement: 3_003 };
    case
}

#[test]
fn on_line_bounds_are_the_least_of_ramp_share_and_maximum() {
    let offers = flag::REGULATING | flag::SPINNING | flag::ONLINE_SHORT_TERM;
    for (rate, maximum, bounds) in [
        (10, 100_000, [500, 300, 200]),
        (1_000, 100_000, [700, 800, 900]),
        (1_000, 750, [700, 750, 750]),
        (14, 100_000, [700, 420, 280]),
        (0, 100_000, [0, 0, 0]),
    ] {
        let case = with_reserves(|resource| {
            resource.flags = offers;
            resource.ramp_rate = rate;
            resource.regulating = Limits { minimum: 0, maximum };
            resource.offline_response = 5;
            resource.offline_short_term = 5;
        });
        let [regulating, contingency, short_term] = bounds;
        assert_eq!(bounds_of(&case), [100_000, regulating, contingency, short_term, 0]);
    }
}

#[test]
fn on_line_bounds_need_their_flags() {
    for (flags, bits, bounds) in [
        (0, 0, [0, 0, 0]),
        (flag::REGULATING, 0, [500, 0, 0]),
        (flag::SPINNING, 0, [0, 300, 0]),
        (0, status::ONLINE_SUPPLEMENTAL, [0, 300, 0]),
        (flag::ONLINE_SHORT_TERM, 0, [0, 0, 200]),
        (flag::OFFLINE_SUPPLEMENTAL | flag::OFFLINE_SHORT_TERM, 7, [0, 0, 0]),
    ] {
        let case = with_reserves(|resource| {
            resource.flags = flags;
            resource.status = bits;
            resource.ramp_rate = 10;
            resource.regulating.maximum = 100_000;
        });
        let [regulating, contingency, short_term] = bounds;
        let expected = [100_000, regulating, contingency, short_term, 0];
        assert_eq!(bounds_of(&case), expected, "flags {flags}, status {bits}");
    }
}

#[test]
fn off_line_bounds() {
    let offers = flag::OFFLINE_SUPPLEMENTAL | flag::OFFLINE_SHORT_TERM;
    for (flags, maximum, response, short_term_limit, bounds) in [
        // A share of 800 binds contingency reserve; no share binds the other.
        (offers, 100_000, 90_000, 80_000, [800, 80_000]),
        (offers, 100_000, 799, 100_001, [799, 100_000]),
        (offers, 300, 799, 400, [300, 300]),
        (flag::OFFLINE_SUPPLEMENTAL, 100_000, 90_000, 80_000, [800, 0]),
        (flag::OFFLINE_SHORT_TERM, 100_000, 90_000, 80_000, [0, 80_000]),
        (255 - offers, 100_000, 90_000, 80_000, [0, 0]),
    ] {
        let case = with_reserves(|resource| {
            resource.breaker_closed = false;
            resource.status = status::ONLINE_SUPPLEMENTAL;
            resource.flags = flags;
            resource.economic.maximum = maximum;
            resource.economic.minimum = 0;
            resource.regulating.maximum = 1;
            resource.offline_response = response;
            resource.offline_short_term = short_term_limit;
        });
        let [contingency, short_term] = bounds;
        assert_eq!(bounds_of(&case), [0, 0, contingency, 0, short_term], "flags {flags}");
    }
}

/// A conventional resource with every offer there is.
fn offering_all(closed: bool, trip: i64) -> Case {
    with_reserves(|resource| {
        resource.breaker_closed = closed;
        resource.minutes_since_trip = trip;
        resource.flags = 255;
        resource.status = 15;
        resource.economic = Limits { minimum: 20_000, maximum: 100_000 };
        resource.regulating = Limits { minimum: 30_000, maximum: 90_000 };
        resource.emergency = Limits { minimum: 10_000, maximum: 120_000 };
        resource.offline_response = 700;
        resource.offline_short_term = 20_000;
        resource.self_schedule = 55_000;
    })
}

/// Request 2.
#[test]
fn a_tripped_resource_has_the_limits_of_an_off_line_one_and_no_bounds() {
    let offline = of(&offering_all(false, 16));
    assert_eq!(bounds_of(&offering_all(false, 16)), [0, 0, 700, 0, 20_000]);
    for closed in [false, true] {
        for trip in [0, 14, 15] {
            let tripped = of(&offering_all(closed, trip));
            let state = OperatingState::Tripped;
            assert_eq!(tripped, Standing { state, bounds: [0; PRODUCTS], ..offline });
            let limits = (tripped.maximum, tripped.minimum, tripped.high, tripped.low);
            assert_eq!(limits, (100_000, 0, 100_000, 0));
            assert!(!tripped.spinning && !tripped.is_online());
        }
    }
    assert_eq!(bounds_of(&offering_all(true, 16)), [100_000, 700, 800, 900, 0]);
}

/// Request 2: places 5 to 9 are e, g, c, s and o of K's resource.
#[test]
fn a_tripped_resource_sells_nothing() {
    for closed in [false, true] {
        let mut pair = worked::pair();
        pair.case = offering_all(closed, 15);
        pair.case.demand = 0;
        pair.certificate.amounts[4] = 0;
        assert_eq!(program_text(&pair).lines().nth(3), Some("1 0 0 0 0 0 0 3000000"));
        for place in 5..=9 {
            let mut given = pair.clone();
            given.certificate.amounts[place - 1] = 1;
            assert_eq!(check(&given), refused(Refusal::Quantity { place }), "closed {closed}");
        }
    }
    // A minute later, and off-line, it gives both reserves.
    let mut pair = worked::pair();
    pair.case = offering_all(false, 16);
    pair.case.demand = 0;
    pair.certificate.amounts[4..].copy_from_slice(&[0, 0, 700, 0, 20_000]);
    assert_eq!(program_text(&pair).lines().nth(3), Some("1 0 0 0 700 0 20000 3000000"));
}

/// Two resources in two zones: the first on-line and spinning, the second
/// off-line though its spinning flag is set.
fn two_resources() -> Pair {
    let mut pair = worked::pair();
    let counts = Counts { resources: 2, zones: 2, flowgates: 1 };
    pair.case.counts = counts;
    pair.case.zones = vec![[11, 12, 13, 14], [21, 22, 23, 24]];
    pair.case.resources[0].flags = flag::SPINNING;
    let mut other = pair.case.resources[0].clone();
    other.zone = 2;
    other.breaker_closed = false;
    other.flags = flag::SPINNING | flag::OFFLINE_SUPPLEMENTAL;
    pair.case.resources.push(other);
    pair.case.flowgates = vec![Flowgate { limit: -7, factors: vec![300, -400] }];
    pair.certificate.counts = counts;
    pair.certificate.amounts = vec![0; 14];
    pair.certificate.amounts[4] = 60_000;
    pair.certificate.row_prices = vec![0; counts.row_count(Version::ONE)];
    pair
}

#[test]
fn the_rows_of_two_resources() {
    let case = two_resources().case;
    // Cleared o, r+s, r, st; then e, g, c, s, o of each resource.
    let expected: [([i64; 14], i64); 24] = [
        ([0, 0, 0, 0, 1, 0, 0, 0, 0, 1, 0, 0, 0, 0], 60_000),
        ([-1, 0, 0, 0, 0, 1, 1, 0, 0, 0, 1, 1, 0, 0], 0),
        ([0, -1, 0, 0, 0, 1, 1, 0, 0, 0, 1, 0, 0, 0], 0),
        ([0, 0, -1, 0, 0, 1, 0, 0, 0, 0, 1, 0, 0, 0], 0),
        ([0, 0, 0, -1, 0, 0, 0, 1, 1, 0, 0, 0, 1, 1], 0),
        ([0, 0, 0, 0, 0, 1, 1, 0, 0, 0, 0, 0, 0, 0], 11),
        ([0, 0, 0, 0, 0, 1, 1, 0, 0, 0, 0, 0, 0, 0], 12),
        ([0, 0, 0, 0, 0, 1, 0, 0, 0, 0, 0, 0, 0, 0], 13),
        ([0, 0, 0, 0, 0, 0, 0, 1, 1, 0, 0, 0, 0, 0], 14),
        ([0, 0, 0, 0, 0, 0, 0, 0, 0, 0, 1, 1, 0, 0], 21),
        ([0, 0, 0, 0, 0, 0, 0, 0, 0, 0, 1, 0, 0, 0], 22),
        ([0, 0, 0, 0, 0, 0, 0, 0, 0, 0, 1, 0, 0, 0], 23),
        ([0, 0, 0, 0, 0, 0, 0, 0, 0, 0, 0, 0, 1, 1], 24),
        ([0, 0, 0, 0, -300, 0, 0, 0, 0, 400, 0, 0, 0, 0], 7_000),
        ([0, 0, 0, 0, -1, -1, -1, 0, 0, 0, 0, 0, 0, 0], -100_000),
        ([0, 0, 0, 0, -1, 0, 0, -1, 0, 0, 0, 0, 0, 0], -100_000),
        ([0, 0, 0, 0, 1, -1, 0, 0, 0, 0, 0, 0, 0, 0], 20_000),
        ([0, 0, 0, 0, -1, 0, 0, 0, 0, 0, 0, 0, 0, 0], -65_000),
        ([0, 0, 0, 0, 1, 0, 0, 0, 0, 0, 0, 0, 0, 0], 35_000),
        ([0, 0, 0, 0, 0, 0, 0, 0, 0, -1, -1, -1, 0, 0], -100_000),
        ([0, 0, 0, 0, 0, 0, 0, 0, 0, -1, 0, 0, -1, 0], -100_000),
        ([0, 0, 0, 0, 0, 0, 0, 0, 0, 1, -1, 0, 0, 0], 0),
        ([0, 0, 0, 0, 0, 0, 0, 0, 0, -1, 0, 0, 0, 0], -100_000),
        ([0, 0, 0, 0, 0, 0, 0, 0, 0, 1, 0, 0, 0, 0], 0),
    ];
    let rows = rows(&case, &standings(&case));
    assert_eq!(rows.len(), expected.len());
    for (index, (row, (coefficients, right))) in rows.iter().zip(expected).enumerate() {
        assert_eq!(row.coefficients, coefficients, "row {}", index + 1);
        assert_eq!(row.right, right, "row {}", index + 1);
        assert_eq!(row.equation, index == 0, "row {}", index + 1);
    }
}

#[test]
fn supplemental_reserve_of_an_on_line_resource_does_not_spin() {
    let mut case = two_resources().case;
    case.resources[0].flags = 0;
    case.resources[0].status = status::ONLINE_SUPPLEMENTAL;
    let rows = rows(&case, &standings(&case));
    assert_eq!(rows[1].coefficients[6], 1);
    assert_eq!(rows[2].coefficients[6], 0);
}

#[test]
fn lmps_and_zone_prices_add_their_rows() {
    let mut pair = two_resources();
    pair.case.zones = vec![[0; CURVES]; 2];
    pair.case.flowgates[0] = Flowgate { limit: 18_000, factors: vec![300, -400] };
    let digits = [1, 10, 100, 1_000];
    pair.certificate.row_prices[0] = 5_000_000;
    for (index, digit) in digits.into_iter().enumerate() {
        pair.certificate.row_prices[1 + index] = digit;
        pair.certificate.row_prices[5 + index] = 2 * digit;
        pair.certificate.row_prices[9 + index] = 4 * digit;
    }
    pair.certificate.row_prices[13] = 10;
    let mut out = [0; 10];
    let count = prices(&pair.case_file(), &pair.certificate_file(), &mut out);
    assert_eq!(count, Ok(10));
    // Regulating, spinning, supplemental, short-term: of three times the
    // digits in the first zone and of five times in the second.
    let expected = [4_997_000, 5_004_000, 333, 33, 3, 3_000, 555, 55, 5, 5_000];
    assert_eq!(out, expected);
}

#[test]
fn steps_of_an_off_line_resource_take_no_part_in_the_bound() {
    let mut pair = two_resources();
    pair.case.zones = vec![[0; CURVES]; 2];
    pair.case.flowgates[0] = Flowgate { limit: 18_000, factors: vec![300, 0] };
    pair.certificate.row_prices[0] = 3_000_000;
    assert_eq!(check(&pair).map(|totals| totals.gap), Ok(0));
    // On-line, its first step would be wanted: 1,000,000 x 40,000.
    pair.case.resources[1].breaker_closed = true;
    pair.case.resources[1].economic.minimum = 0;
    pair.case.resources[1].initial = 0;
    assert_eq!(check(&pair).map(|totals| totals.gap), Ok(40_000_000_000));
}

/// Request 2: row 1 and the market rows would pay for all that it offers.
#[test]
fn offers_of_a_tripped_resource_take_no_part_in_the_bound() {
    let mut pair = worked::pair();
    pair.case = offering_all(true, 15);
    pair.case.demand = 0;
    pair.certificate.amounts[4] = 0;
    pair.certificate.row_prices[0] = 3_500_000;
    pair.certificate.row_prices[1] = 10_000;
    pair.certificate.row_prices[4] = 20_000;
    let nothing = Totals { cost: 0, bound: 0, gap: 0 };
    assert_eq!(check(&pair), Ok(nothing));
    let mut out = vec![-1; 44];
    assert_eq!(charges(&pair.case_file(), &pair.certificate_file(), &mut out), Ok(44));
    assert_eq!(out, [0; 44]);
    // Off-line, its reserves would be wanted: c 700 and o 20,000 kW.
    pair.case = Case { demand: 0, ..offering_all(false, 16) };
    let gap = check(&pair).map(|totals| totals.gap);
    assert_eq!(gap, Ok(10_000 * 700 + 20_000 * 20_000));
}

#[test]
fn curve_steps_are_charged_what_they_leave_unfilled() {
    let mut pair = worked::pair();
    let step = |width, price| nostwier_reference::case::Step { width, price };
    pair.case.curves[0] = [step(100, 9), step(50, 4), step(10, 4), step(0, 0)];
    pair.case.contingency.share = 1000;
    pair.case.contingency.requirement = 1_000;
    let resource = &mut pair.case.resources[0];
    resource.flags = flag::SPINNING;
    resource.contingency_price = 5;
    pair.certificate.amounts[0] = 120;
    pair.certificate.amounts[6] = 120;
    pair.certificate.row_prices[1] = 5_000;
    let accepted = accept(&pair.case_file(), &pair.certificate_file()).expect("accepted");
    let accounts = accounts(&accepted).expect("fits");
    // 20 kW of the second step are worth 4 and are paid 5.
    assert_eq!(accounts.cost, 140_000_000_000 + 1000 * (5 * 120 - 9 * 100 - 4 * 20));
    let curve_steps = &accounts.charges[accounts.charges.len() - 16..];
    assert_eq!(curve_steps[..4], [0, 1_000 * 20, 0, 0]);
    assert_eq!(accounts.gap, 20_000);
    // At 3, both steps are wanted in full, and the resource is underpaid.
    pair.certificate.row_prices[1] = 3_000;
    assert_eq!(check(&pair).map(|totals| totals.gap), Ok(1_000 * 40 + 2_000 * 120));
}

#[test]
fn every_market_and_zone_row_can_be_the_one_that_breaks() {
    let mut pair = two_resources();
    pair.case.flowgates[0] = Flowgate { limit: 18_000, factors: vec![300, 0] };
    for zone in 0..2 {
        for curve in 0..4 {
            pair.case.zones = vec![[0; CURVES]; 2];
            pair.case.zones[zone][curve] = 1;
            assert_eq!(check(&pair), refused(Refusal::Row { row: 6 + 4 * zone + curve }));
        }
    }
    pair.case.zones = vec![[0; CURVES]; 2];
    pair.case.flowgates[0].limit = 17_999;
    assert_eq!(check(&pair), refused(Refusal::Row { row: 14 }));
}

/// The range of the first field of a name.
fn range(fields: &[Field], name: &str) -> (i64, i64) {
    let field = fields.iter().find(|field| field.name == name);
    let field = field.unwrap_or_else(|| panic!("no field '{name}'"));
    (field.least, field.most)
}

type Ranges = (&'static [&'static str], (i64, i64));

const POWER: (i64, i64) = (0, 2_000_000);

const HEAD_RANGES: [Ranges; 7] = [
    (&["demand"], (0, 128_000_000)),
    (&["contingency multiplier", "regulating multiplier", "short-term multiplier"], (1, 5_000)),
    (&["contingency minutes", "regulating minutes", "short-term minutes"], (1, 60)),
    (&["regulating share", "contingency share", "short-term share"], (0, 1_000)),
    (
        &[
            "regulating market requirement",
            "contingency market requirement",
            "short-term market requirement",
        ],
        (0, 8_000_000),
    ),
    (
        &[
            "operating curve width",
            "regulating-plus-spinning curve width",
            "regulating curve width",
            "short-term curve width",
        ],
        (0, 8_000_000),
    ),
    (
        &[
            "operating curve price",
            "regulating-plus-spinning curve price",
            "regulating curve price",
            "short-term curve price",
        ],
        (0, 400_000),
    ),
];

const PART_RANGES: [Ranges; 17] = [
    (&["operating requirement", "regulating-plus-spinning requirement"], POWER),
    (&["regulating requirement", "short-term requirement"], POWER),
    (&["kind"], (1, 3)),
    (&["zone"], (1, 3)),
    (&["breaker"], (0, 1)),
    (&["status"], (0, 15)),
    (&["minutes since trip", "flags"], (0, 255)),
    (&["estimated output"], (-2_000_000, 2_000_000)),
    (&["economic minimum", "economic maximum", "regulating minimum"], POWER),
    (&["regulating maximum", "emergency minimum", "emergency maximum"], POWER),
    (&["ramp up", "ramp down", "ramp rate"], (0, 400_000)),
    (&["initial energy", "off-line response limit", "off-line short-term limit"], POWER),
    (&["self-schedule", "energy width"], POWER),
    (&["regulating price", "contingency price", "off-line short-term price"], (0, 400_000)),
    (&["energy price"], (-400_000, 400_000)),
    (&["flowgate limit"], (-20_000_000, 20_000_000)),
    (&["shift factor"], (-1_000, 1_000)),
];

#[test]
fn the_ranges_of_a_case() {
    let fields = case_fields(Version::ONE, Counts { resources: 2, zones: 3, flowgates: 1 });
    let mut seen = 0;
    for (names, expected) in HEAD_RANGES.into_iter().chain(PART_RANGES) {
        for name in names {
            assert_eq!(range(&fields, name), expected, "{name}");
            seen += fields.iter().filter(|field| field.name == *name).count();
        }
    }
    assert_eq!(seen, fields.len());
}

#[test]
fn the_ranges_of_a_certificate() {
    let fields = certificate_fields(Version::ONE, Counts { resources: 1, zones: 1, flowgates: 1 });
    assert_eq!(range(&fields, "energy row price"), (-400_000_000, 400_000_000));
    assert_eq!(range(&fields, "flowgate price"), (0, 400_000));
    let mut prices = 0;
    for field in &fields {
        if field.most == 400_000_000 && field.least == 0 {
            prices += 1;
        }
    }
    assert_eq!(prices, 4 + 4 + 5);
    let quantities = fields.iter().filter(|field| field.most == i64::from(u32::MAX)).count();
    assert_eq!(quantities, 4 + 5);
}
