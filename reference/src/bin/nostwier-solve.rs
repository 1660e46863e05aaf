//! A certificate for a case by way of a solver; see `--help`.

use nostwier_reference::solve::command;
use std::process::ExitCode;

fn main() -> ExitCode {
    command::run(std::env::args_os().skip(1).collect())
}
