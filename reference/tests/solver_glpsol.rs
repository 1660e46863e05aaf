//! Certificates by way of glpsol. They need it installed, so they run when asked
//! for: `cargo test -- --include-ignored`.

#[path = "common/mod.rs"]
mod common;

use common::solving;
use nostwier_reference::solve::solver::Solver;

#[test]
#[ignore = "needs glpsol"]
fn solves_the_worked_interval() {
    solving::solves_k(Solver::Glpsol);
}

#[test]
#[ignore = "needs glpsol"]
fn tells_of_no_schedule() {
    solving::tells_of_no_schedule(Solver::Glpsol);
}

#[test]
#[ignore = "needs glpsol"]
fn leaves_no_gap_without_flowgates() {
    solving::leaves_no_gap_without_flowgates(Solver::Glpsol);
}

#[test]
#[ignore = "needs glpsol"]
fn leaves_little_gap_with_flowgates() {
    solving::leaves_little_gap_with_flowgates(Solver::Glpsol);
}

#[test]
#[ignore = "needs glpsol"]
fn agrees_with_every_schedule_of_tiny_cases() {
    solving::agrees_with_enumeration(Solver::Glpsol);
}

#[test]
#[ignore = "needs glpsol"]
fn does_better_than_clipped_duals() {
    solving::does_better_than_clipped_duals(Solver::Glpsol);
}
