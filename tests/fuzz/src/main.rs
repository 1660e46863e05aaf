//! Mutated calls of the library's operations and runs of its program, each against the reference. The library is tried in
//! the C host of tests/host. A trial that differs is shrunk and saved; a difference of a kind already saved is not saved
//! again.

mod mutate;
mod shrink;
mod subject;
mod trial;

use mutate::Mutator;
use nostwier_reference::vectors::{Files, Operation};
use std::collections::HashSet;
use std::path::{Path, PathBuf};
use std::process::ExitCode;
use std::time::{Duration, Instant};
use subject::Subject;
use trial::{Trial, What};

const HELP: &str = "\
Usage: nostwier-fuzz SEED SECONDS MOST CORPUS FOUND HOST PROGRAM OPERATION..

Tries the OPERATIONs of the library in HOST, and PROGRAM ('-' for none), on
trials mutated from the pairs in CORPUS. What differs from the reference is
shrunk and saved in FOUND: NAME.record for HOST's standard input, or NAME.input
for PROGRAM's with NAME.expected. Stops after SECONDS, or at MOST differences.
The last line is 'N executions, M differences'; status 0 if M is 0, else 1.
";

/// Calls of a batch, and runs of the program, which take a process each.
const CALLS: usize = 1000;
const RUNS: usize = 20;

struct Order {
    seed: u64,
    time: Duration,
    most: usize,
    corpus: Vec<Files>,
    found: PathBuf,
    subject: Subject,
    operations: Vec<Operation>,
}

fn main() -> ExitCode {
    match order().and_then(|order| fuzz(&order)) {
        Ok(0) => ExitCode::SUCCESS,
        Ok(_) => ExitCode::FAILURE,
        Err(line) => {
            eprintln!("nostwier-fuzz: {line}");
            ExitCode::from(2)
        }
    }
}

fn order() -> Result<Order, String> {
    let words: Vec<String> = std::env::args().skip(1).collect();
    let [seed, seconds, most, corpus, found, host, program, names @ ..] = &words[..] else {
        return Err(HELP.to_string());
    };
    let number = |word: &String| word.parse::<u64>().map_err(|_| format!("'{word}' is no number"));
    let operations: Option<Vec<Operation>> =
        names.iter().map(|name| Operation::from_name(name)).collect();
    Ok(Order {
        seed: number(seed)?,
        time: Duration::from_secs(number(seconds)?),
        most: number(most)? as usize,
        corpus: pairs(Path::new(corpus))?,
        found: PathBuf::from(found),
        subject: Subject {
            host: PathBuf::from(host),
            program: (program != "-").then(|| PathBuf::from(program)),
        },
        operations: operations.filter(|list| !list.is_empty()).ok_or("which operations?")?,
    })
}

/// NAME.case with NAME.cert, in the order of names.
fn pairs(directory: &Path) -> Result<Vec<Files>, String> {
    let fault = |error: std::io::Error| format!("{}: {error}", directory.display());
    let mut cases = Vec::new();
    for entry in std::fs::read_dir(directory).map_err(fault)? {
        let path = entry.map_err(fault)?.path();
        if path.extension().is_some_and(|kind| kind == "case") {
            cases.push(path);
        }
    }
    cases.sort();
    let file =
        |path: &Path| std::fs::read(path).map_err(|error| format!("{}: {error}", path.display()));
    let pairs: Result<Vec<Files>, String> = cases
        .iter()
        .map(|path| {
            Ok(Files { case: file(path)?, certificate: file(&path.with_extension("cert"))? })
        })
        .collect();
    pairs.and_then(
        |list| if list.is_empty() { Err("the corpus is empty".to_string()) } else { Ok(list) },
    )
}

/// The number of differences.
fn fuzz(order: &Order) -> Result<usize, String> {
    let end = Instant::now() + order.time;
    let mut mutator = Mutator::new(order.seed, order.corpus.clone());
    let mut executions = 0;
    let mut kinds = HashSet::new();
    let mut found = 0;
    while executions == 0 || (Instant::now() < end && found < order.most) {
        let mut trials: Vec<Trial> = (0..CALLS)
            .map(|turn| mutator.call(order.operations[turn % order.operations.len()]))
            .collect();
        if order.subject.program.is_some() {
            trials.extend((0..RUNS).map(|_| mutator.program()));
        }
        for (place, why) in order.subject.differences(&trials)? {
            if found >= order.most || !kinds.insert(kind_of(&trials[place], &why)) {
                continue;
            }
            found += 1;
            let (small, why) = shrink::shrunk(&order.subject, trials[place].clone(), why)?;
            println!("{}: {}: {why}", save(order, &small, &why, found)?, small.what.name());
            kinds.insert(kind_of(&small, &why));
        }
        for trial in &trials {
            mutator.learn(trial);
        }
        executions += trials.len();
    }
    println!("{} outcomes of the reference were met", mutator.outcomes());
    println!("{executions} executions, {found} differences");
    Ok(found)
}

/// Differences that look alike: the same call, the same words, whatever the numbers.
fn kind_of(trial: &Trial, why: &str) -> String {
    let words: String = why.chars().filter(|letter| !letter.is_ascii_digit()).collect();
    format!("{}: {words}", trial.what.name())
}

fn save(order: &Order, trial: &Trial, why: &str, number: usize) -> Result<String, String> {
    let put = |name: &str, bytes: &[u8]| {
        let path = order.found.join(name);
        std::fs::write(&path, bytes).map_err(|error| format!("{}: {error}", path.display()))
    };
    std::fs::create_dir_all(&order.found).map_err(|error| error.to_string())?;
    let name = format!("{}-{}-{number}", trial.what.name(), order.seed);
    put(&format!("{name}.txt"), format!("{why}\n").as_bytes())?;
    if trial.what == What::Program {
        put(&format!("{name}.expected"), trial.text().as_bytes())?;
        put(&format!("{name}.input"), &trial.bytes()?)?;
        return Ok(format!("{name}.input"));
    }
    // What the reference cannot answer has no record.
    let raw = || [&trial.case[..], &trial.certificate].concat();
    put(&format!("{name}.record"), &trial.bytes().unwrap_or_else(|_| raw()))?;
    Ok(format!("{name}.record"))
}
