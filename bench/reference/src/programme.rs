//! Writes, for each case that is named, its linear programme beside it: NAME.mps for NAME.case.

use nostwier_reference::check_case;
use nostwier_reference::solve::{mps, programme::Programme};
use std::path::PathBuf;

fn main() -> Result<(), String> {
    for case in std::env::args_os().skip(1).map(PathBuf::from) {
        let bytes = std::fs::read(&case).map_err(|error| format!("{}: {error}", case.display()))?;
        let valid = check_case(&bytes).map_err(|why| format!("{}: {why}", case.display()))?;
        let text = mps::text(&Programme::of_case(&valid), false);
        std::fs::write(case.with_extension("mps"), text).map_err(|error| error.to_string())?;
    }
    Ok(())
}
