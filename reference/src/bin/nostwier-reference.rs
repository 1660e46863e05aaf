//! The reference on the command line; see `--help`.

use nostwier_reference::command;
use std::process::ExitCode;

fn main() -> ExitCode {
    command::run(std::env::args_os().skip(1).collect())
}
