//! Cases solved by a real solver, for the tests of each.

use nostwier_reference::certificate::Certificate;
use nostwier_reference::enumerate::cheapest;
use nostwier_reference::generate::{pair_of_scale, Pair, Scale};
use nostwier_reference::layout::{Counts, Version};
use nostwier_reference::program::whole_text;
use nostwier_reference::random::Random;
use nostwier_reference::solve::programme::Programme;
use nostwier_reference::solve::progress::Progress;
use nostwier_reference::solve::solve;
use nostwier_reference::solve::solver::{Call, Solver};
use nostwier_reference::worked;
use std::path::PathBuf;
use std::process::{Command, Output};

/// 1,200,000,000 grains are a dollar of the interval.
const CENT: i64 = 12_000_000;

fn scratch(name: &str) -> PathBuf {
    let path = PathBuf::from(env!("CARGO_TARGET_TMPDIR")).join(name);
    let _ = std::fs::remove_dir_all(&path);
    std::fs::create_dir_all(&path).expect("made");
    path
}

fn call(solver: Solver, name: &str) -> Call {
    let directory = scratch(&format!("{name}-{}", solver.name()));
    Call { solver, directory, seconds: 5, progress: Progress::Silent }
}

fn run(directory: &PathBuf, arguments: &[&str]) -> Output {
    Command::new(env!("CARGO_BIN_EXE_nostwier-solve"))
        .args(arguments)
        .current_dir(directory)
        .output()
        .expect("the program starts")
}

/// The worked interval, from file to file.
pub fn solves_k(solver: Solver) {
    let directory = scratch(&format!("solve-k-{}", solver.name()));
    let case = worked::pair().case_file();
    std::fs::write(directory.join("k.case"), &case).expect("written");
    let output =
        run(&directory, &["k.case", "-o", "k.cert", "--solver", solver.name(), "--keep", "kept"]);
    assert_eq!(String::from_utf8_lossy(&output.stderr), "");
    assert_eq!(output.stdout, b"cost 140000000000\nbound 140000000000\ngap 0\n");
    assert!(directory.join("kept/relaxed.mps").exists());
    let certificate = std::fs::read(directory.join("k.cert")).expect("written");
    let expected = super::program_text(&worked::pair());
    assert_eq!(whole_text(&[case, certificate].concat()), expected);
}

/// A case without any feasible schedule is told in a line, and no certificate
/// is written.
pub fn tells_of_no_schedule(solver: Solver) {
    let directory = scratch(&format!("solve-none-{}", solver.name()));
    let mut pair = worked::pair();
    pair.case.demand = 65_001;
    std::fs::write(directory.join("k.case"), pair.case_file()).expect("written");
    let output = run(&directory, &["k.case", "-o", "k.cert", "--solver", solver.name()]);
    assert_eq!(output.status.code(), Some(1));
    let line = String::from_utf8(output.stderr).expect("text");
    assert!(line.contains("no schedule that keeps every row"), "{line}");
    assert!(line
        .contains("Demand is 65001 kW; the resources that are on-line can give 35000 to 65000 kW"));
    assert_eq!(line.lines().count(), 1);
    assert!(!directory.join("k.cert").exists());
}

fn common_case(random: &mut Random, resources: i64, flowgates: i64) -> Pair {
    let counts = Counts {
        resources: random.between(1, resources) as usize,
        zones: random.between(1, 8) as usize,
        flowgates: random.between(flowgates.min(1), flowgates) as usize,
    };
    pair_of_scale(random, Version::ONE, counts, Scale { edges: 5, ..Scale::COMMON })
}

/// Without flowgates the duals are whole and no gap is left.
pub fn leaves_no_gap_without_flowgates(solver: Solver) {
    let mut random = Random::new(61);
    let call = call(solver, "no-flowgates");
    for index in 0..20 {
        let pair = common_case(&mut random, 40, 0);
        let solved = solve(&pair.case, &call).expect("a feasible case");
        assert_eq!(solved.totals.gap, 0, "case {index}");
        let own = super::check(&pair).expect("accepted");
        assert!(solved.totals.cost <= own.cost, "case {index}");
    }
}

/// With flowgates prices are rounded, and a gap of some thousandths is left.
pub fn leaves_little_gap_with_flowgates(solver: Solver) {
    let mut random = Random::new(62);
    let call = call(solver, "flowgates");
    let mut within_a_cent = 0;
    for index in 0..20 {
        let pair = common_case(&mut random, 24, 6);
        let solved = solve(&pair.case, &call).expect("a feasible case");
        let own = super::check(&pair).expect("accepted");
        assert!(solved.totals.bound <= own.cost, "case {index}");
        assert!(solved.totals.gap <= 100 * CENT, "case {index}: gap {}", solved.totals.gap);
        within_a_cent += usize::from(solved.totals.gap <= CENT);
    }
    assert!(within_a_cent >= 14, "{within_a_cent} of 20 within a cent");
}

/// Where duals are not whole cents or leave their range, the further prices
/// that are tried leave less gap than clipped duals would.
pub fn does_better_than_clipped_duals(solver: Solver) {
    let mut random = Random::new(64);
    let call = call(solver, "clipped");
    let mut with_flowgates = 0;
    let mut out_of_range = 0;
    for index in 0..30 {
        let flowgates = 3 * (index % 2);
        let counts = Counts { resources: 12, zones: 2, flowgates };
        let scale = if flowgates > 0 { Scale::COMMON } else { Scale::FULL };
        let pair = pair_of_scale(&mut random, Version::ONE, counts, Scale { edges: 5, ..scale });
        let solved = solve(&pair.case, &call).expect("a feasible case");
        let programme = Programme::of_case(&pair.case);
        let duals = call.linear(&programme, "plain").expect("a feasible case").duals;
        let clipped = Certificate {
            row_prices: programme.whole_prices(&duals),
            ..solved.certificate.clone()
        };
        let clipped = super::check(&Pair { certificate: clipped, ..pair }).expect("accepted");
        assert!(solved.totals.gap <= clipped.gap, "case {index}");
        if solved.totals.gap < clipped.gap {
            with_flowgates += usize::from(flowgates > 0);
            out_of_range += usize::from(flowgates == 0);
        }
    }
    assert!(with_flowgates >= 3, "better in {with_flowgates} cases with flowgates");
    assert!(out_of_range >= 1, "better in {out_of_range} cases out of range");
}

/// Tiny cases against every schedule they have.
pub fn agrees_with_enumeration(solver: Solver) {
    let mut random = Random::new(63);
    let call = call(solver, "tiny");
    let mut compared = 0;
    let mut cheapest_found = 0;
    while compared < 25 {
        let counts = Counts {
            resources: random.between(1, 3) as usize,
            zones: random.between(1, 2) as usize,
            flowgates: random.between(0, 2) as usize,
        };
        let pair = pair_of_scale(&mut random, Version::ONE, counts, Scale::TINY);
        let Some((least, feasible)) = cheapest(&pair.case, 150_000) else {
            continue;
        };
        if feasible < 2 {
            continue;
        }
        let solved = solve(&pair.case, &call).expect("a feasible case");
        assert!(i128::from(solved.totals.bound) <= least);
        assert!(least <= i128::from(solved.totals.cost));
        cheapest_found += usize::from(i128::from(solved.totals.cost) == least);
        compared += 1;
    }
    assert!(cheapest_found >= 20, "cheapest found in {cheapest_found} of 25");
}
