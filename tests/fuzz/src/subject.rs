//! What is tried: the library in its C host, and the program. The host compares by itself all that a call returns and
//! leaves behind, and catches calls that touch what is not lent; here its lines are read.

use crate::trial::{Trial, What};
use std::io::Write;
use std::path::{Path, PathBuf};
use std::process::{Command, Output, Stdio};

pub struct Subject {
    pub host: PathBuf,
    pub program: Option<PathBuf>,
}

/// A trial, by its place in the list, and what was wrong with it.
pub type Difference = (usize, String);

impl Subject {
    /// The first trials that differ from the reference; not always all of them, but none only if all are well.
    pub fn differences(&self, trials: &[Trial]) -> Result<Vec<Difference>, String> {
        let mut found = Vec::new();
        let mut records = Vec::new();
        for (place, trial) in trials.iter().enumerate() {
            match trial.bytes() {
                Err(why) => found.push((place, why)),
                Ok(_) if trial.what == What::Program => {
                    if let Some(why) = self.program_differs(trial)? {
                        found.push((place, why));
                    }
                }
                Ok(record) => records.push((place, record)),
            }
        }
        found.extend(self.calls_differ(&records)?);
        found.sort();
        Ok(found)
    }

    fn calls_differ(&self, records: &[(usize, Vec<u8>)]) -> Result<Vec<Difference>, String> {
        if records.is_empty() {
            return Ok(Vec::new());
        }
        let input: Vec<&[u8]> = records.iter().map(|(_, record)| &record[..]).collect();
        let output = run(&self.host, &input.concat())?;
        let text = String::from_utf8_lossy(&output.stdout);
        match output.status.code() {
            Some(0) => Ok(Vec::new()),
            Some(1) => text.lines().filter_map(|line| told(line, records)).collect(),
            Some(2) => Err(String::from_utf8_lossy(&output.stderr).into_owned()),
            // It was stopped: by the clock, or by a fault that it could not catch. Halves tell where.
            _ => match records.split_at(records.len() / 2) {
                ([], [(place, _)]) => {
                    Ok(vec![(*place, format!("the host ended with {}", output.status))])
                }
                (some, others) => {
                    let mut found = self.calls_differ(some)?;
                    if found.is_empty() {
                        found = self.calls_differ(others)?;
                    }
                    Ok(found)
                }
            },
        }
    }

    fn program_differs(&self, trial: &Trial) -> Result<Option<String>, String> {
        let Some(program) = &self.program else {
            return Ok(None);
        };
        let output = run(program, &trial.bytes()?)?;
        let printed = String::from_utf8_lossy(&output.stdout);
        Ok(if output.status.code().is_none() {
            Some(format!("the program ended with {}", output.status))
        } else if printed != trial.text() {
            Some("the program prints another text".to_string())
        } else if !output.stderr.is_empty() {
            Some("the program prints on standard error".to_string())
        } else {
            None
        })
    }
}

/// `record N, operation K: WHY`, N counted from 1.
fn told(line: &str, records: &[(usize, Vec<u8>)]) -> Option<Result<Difference, String>> {
    let (number, rest) = line.strip_prefix("record ")?.split_once(", ")?;
    let place = number.parse::<usize>().ok().and_then(|number| records.get(number.wrapping_sub(1)));
    let why = rest.split_once(": ").map_or(rest, |(_, why)| why);
    Some(place.map(|(place, _)| (*place, why.to_string())).ok_or(format!("the host says '{line}'")))
}

/// Runs a program for 20 seconds at most. It may end before it has read everything.
fn run(program: &Path, input: &[u8]) -> Result<Output, String> {
    let fault = |error| format!("cannot run {}: {error}", program.display());
    let mut child = Command::new("timeout")
        .args(["-s", "KILL", "20"])
        .arg(program)
        .stdin(Stdio::piped())
        .stdout(Stdio::piped())
        .stderr(Stdio::piped())
        .spawn()
        .map_err(fault)?;
    if let Some(mut stdin) = child.stdin.take() {
        let _ = stdin.write_all(input);
    }
    child.wait_with_output().map_err(fault)
}
