//! Certificates by way of cbc. They need it installed, so they run when asked
//! for: `cargo test -- --include-ignored`.

#[path = "common/mod.rs"]
mod common;

use common::solving;
use nostwier_reference::solve::solver::Solver;

#[test]
#[ignore = "needs cbc"]
fn solves_the_worked_interval() {
    solving::solves_k(Solver::Cbc);
}

#[test]
#[ignore = "needs cbc"]
fn tells_of_no_schedule() {
    solving::tells_of_no_schedule(Solver::Cbc);
}

#[test]
#[ignore = "needs cbc"]
fn leaves_no_gap_without_flowgates() {
    solving::leaves_no_gap_without_flowgates(Solver::Cbc);
}

#[test]
#[ignore = "needs cbc"]
fn leaves_little_gap_with_flowgates() {
    solving::leaves_little_gap_with_flowgates(Solver::Cbc);
}

#[test]
#[ignore = "needs cbc"]
fn agrees_with_every_schedule_of_tiny_cases() {
    solving::agrees_with_enumeration(Solver::Cbc);
}

#[test]
#[ignore = "needs cbc"]
fn does_better_than_clipped_duals() {
    solving::does_better_than_clipped_duals(Solver::Cbc);
}
