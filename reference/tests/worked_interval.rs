//! (a) to (l): the paper's worked interval and its marked changes.

mod common;

use common::{check, program_text, refused};
use nostwier_reference::case::{flag, status, Flowgate, Kind};
use nostwier_reference::generate::Pair;
use nostwier_reference::standing::{operating_state, ramp, OperatingState};
use nostwier_reference::{charges, prices, worked, Failure, Refusal, Totals};

/// Where resource 1's energy stands among the amounts of K.
const ENERGY: usize = 4;
/// Where the row e <= HI stands among the prices of K.
const HIGH_ROW: usize = 12;

fn with_energy_price(price: i64) -> Pair {
    let mut pair = worked::pair();
    pair.certificate.row_prices[0] = price;
    pair
}

/// What is due of K's certificate: its cost without a gap while resource 1 is
/// on-line, and its energy above a bound of 0 otherwise.
fn as_in_k(online: bool) -> Result<Totals, Failure> {
    if online {
        Ok(Totals { cost: 140_000_000_000, bound: 140_000_000_000, gap: 0 })
    } else {
        refused(Refusal::Quantity { place: 5 })
    }
}

fn with_demand_and_energy(power: i64) -> Pair {
    let mut pair = worked::pair();
    pair.case.demand = power;
    pair.certificate.amounts[ENERGY] = power;
    pair
}

#[test]
fn k_is_the_file_the_paper_describes() {
    let file = worked::pair().case_file();
    assert_eq!(file.len(), 170 + 16 + 154);
    assert_eq!(file[..12], [0, 0, 1, 80, 1, 1, 1, 0, 0, 0, 234, 96]);
    let certificate = worked::pair().certificate_file();
    assert_eq!(certificate.len(), 44 + 16 + 40);
    assert_eq!(certificate[24..28], 3_000_000i32.to_be_bytes());
    assert_eq!(certificate[60..64], 60_000u32.to_be_bytes());
}

#[test]
fn a_prints_the_five_lines() {
    let expected = "\
cost 140000000000
bound 140000000000
gap 0
1 1 60000 0 0 0 0 3000000
zone 1 0 0 0 0
";
    assert_eq!(program_text(&worked::pair()), expected);
}

#[test]
fn b_a_low_energy_price_leaves_a_gap() {
    let totals = check(&with_energy_price(2_500_000)).expect("accepted");
    assert_eq!((totals.cost, totals.gap), (140_000_000_000, 10_000_000_000));
}

#[test]
fn c_a_high_energy_price_leaves_a_gap() {
    let totals = check(&with_energy_price(3_500_000)).expect("accepted");
    assert_eq!((totals.cost, totals.gap), (140_000_000_000, 20_000_000_000));
}

#[test]
fn d_the_ramp_row_takes_up_the_price() {
    let mut pair = with_demand_and_energy(65_000);
    pair.certificate.row_prices[0] = 3_500_000;
    pair.certificate.row_prices[HIGH_ROW] = 500_000;
    let totals = check(&pair).expect("accepted");
    assert_eq!((totals.cost, totals.gap), (155_000_000_000, 0));
}

#[test]
fn e_a_kw_beyond_the_ramp_breaks_row_13() {
    assert_eq!(check(&with_demand_and_energy(65_001)), refused(Refusal::Row { row: 13 }));
}

#[test]
fn f_a_kw_short_of_demand_breaks_row_1() {
    let mut pair = worked::pair();
    pair.certificate.amounts[ENERGY] = 59_999;
    assert_eq!(check(&pair), refused(Refusal::Row { row: 1 }));
    assert_eq!(program_text(&pair), "refused 14 1\n");
}

#[test]
fn f_too_much_energy_breaks_row_1_too() {
    let mut pair = worked::pair();
    pair.certificate.amounts[ENERGY] = 60_001;
    assert_eq!(check(&pair), refused(Refusal::Row { row: 1 }));
}

#[test]
fn g_an_output_of_499_is_off_line() {
    let mut pair = worked::pair();
    pair.case.resources[0].output = 499;
    assert_eq!(check(&pair), refused(Refusal::Quantity { place: 5 }));
    assert_eq!(program_text(&pair), "refused 13 5\n");
}

#[test]
fn h_outputs_of_500_either_way_are_on_line() {
    for (output, online) in [(500, true), (-500, true), (499, false), (-499, false)] {
        let mut pair = worked::pair();
        pair.case.resources[0].output = output;
        let state = if online { OperatingState::Online } else { OperatingState::Offline };
        assert_eq!(operating_state(&pair.case.resources[0]), state, "output {output}");
        assert_eq!(check(&pair), as_in_k(online), "output {output}");
    }
}

/// By request 2, (i) reads tripped at 15.
#[test]
fn i_fifteen_minutes_after_a_trip_are_too_few() {
    for (minutes, online) in [(0, false), (15, false), (16, true), (254, true), (255, true)] {
        let mut pair = worked::pair();
        pair.case.resources[0].minutes_since_trip = minutes;
        let state = if online { OperatingState::Online } else { OperatingState::Tripped };
        assert_eq!(operating_state(&pair.case.resources[0]), state, "minutes {minutes}");
        assert_eq!(check(&pair), as_in_k(online), "minutes {minutes}");
    }
}

#[test]
fn j_a_committed_intermittent_resource_needs_output() {
    for (output, online) in [(1, true), (0, false), (-1, false)] {
        let mut pair = worked::pair();
        let resource = &mut pair.case.resources[0];
        resource.kind = Kind::Intermittent;
        resource.status = status::COMMITTED;
        resource.output = output;
        assert_eq!(check(&pair), as_in_k(online), "output {output}");
    }
}

#[test]
fn k_the_ramp_multiplies_before_it_divides() {
    let mut pair = worked::pair();
    pair.case.regulating.multiplier = 700;
    assert_eq!(ramp(pair.case.resources[0].ramp_rate, &pair.case.regulating), 42_857);
}

#[test]
fn k_the_ramp_bounds_contingency_reserve() {
    for (amount, answer) in
        [(42_857, as_in_k(true)), (42_858, refused(Refusal::Quantity { place: 7 }))]
    {
        let mut pair = worked::pair();
        pair.case.contingency.multiplier = 700;
        pair.case.contingency.share = 1000;
        pair.case.contingency.requirement = 2_000_000;
        let resource = &mut pair.case.resources[0];
        resource.flags = flag::SPINNING;
        resource.economic.maximum = 200_000;
        pair.certificate.amounts[ENERGY + 2] = amount;
        assert_eq!(check(&pair), answer, "{amount} kW");
    }
}

#[test]
fn l_a_flowgate_raises_the_lmp_behind_it() {
    let mut pair = worked::pair();
    pair.case.counts.flowgates = 1;
    pair.case.flowgates = vec![Flowgate { limit: 0, factors: vec![-60] }];
    pair.certificate.counts.flowgates = 1;
    pair.certificate.row_prices.insert(9, 200);
    let mut out = [0; 5];
    let count = prices(&pair.case_file(), &pair.certificate_file(), &mut out);
    assert_eq!(count, Ok(5));
    assert_eq!(out, [3_012_000, 0, 0, 0, 0]);
    // By hand: the row is slack by 60 x 60,000, and each step's net price
    // falls by 12,000 a kW over 100,000 kW, of which 60,000 are taken.
    let totals = check(&pair).expect("accepted");
    assert_eq!(totals.gap, 200 * 60 * 60_000 + 12_000 * (100_000 - 60_000));
}

#[test]
fn b_is_charged_to_the_step_that_the_price_does_not_pay() {
    let pair = with_energy_price(2_500_000);
    let mut out = vec![-1; 44];
    assert_eq!(charges(&pair.case_file(), &pair.certificate_file(), &mut out), Ok(44));
    // 14 rows, then resource 1's steps: the second runs at a loss of 500,000.
    assert_eq!(out[15], 500_000 * 20_000);
    assert_eq!(out.iter().filter(|charge| **charge != 0).count(), 1);
}

#[test]
fn c_is_charged_to_the_step_that_could_give_more() {
    let pair = with_energy_price(3_500_000);
    let mut out = vec![-1; 44];
    assert_eq!(charges(&pair.case_file(), &pair.certificate_file(), &mut out), Ok(44));
    assert_eq!(out[15], 500_000 * 40_000);
    assert_eq!(out.iter().filter(|charge| **charge != 0).count(), 1);
}
