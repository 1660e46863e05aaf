//! The program `nostwier-solve`.

use crate::check_case;
use crate::generate::Pair;
use crate::solve::progress::Progress;
use crate::solve::solve;
use crate::solve::solver::{Call, Solver, Unsolved};
use std::ffi::OsString;
use std::io::Write;
use std::path::PathBuf;
use std::process::ExitCode;

const HELP: &str = "\
Usage: nostwier-solve CASE -o CERT [--solver glpsol|clp|cbc] [--keep DIR]
                      [--seconds N]

Writes the linear programme of a case, has a solver solve it, rounds schedule
and prices to whole numbers, and writes the best certificate that it finds.
Prints cost, bound and gap, in grains; 1200000000 grains are a dollar of the
interval. On standard error it says so if the solver stopped at its time limit;
where that is a terminal, it also shows what is being waited for.
  -o CERT        the certificate to write
  --solver NAME  the solver to call (glpsol unless said otherwise)
  --keep DIR     leave programmes and answers in DIR: relaxed.mps with fractions
                 allowed and whole.mps in whole numbers; if need be priced.mps,
                 whose duals stay in the range of prices, and held.mps, with
                 flowgate prices held at whole cents
  --seconds N    how long the solver may look for whole numbers (20)

Exit status 0 if a certificate was written, 1 if the case is refused or no
certificate was found, 2 if the program was used wrongly, a file cannot be read
or written, or the solver is missing or fails.
";

struct Order {
    case: PathBuf,
    certificate: PathBuf,
    solver: Solver,
    keep: Option<PathBuf>,
    seconds: u32,
}

/// A line for standard error, and the exit status.
struct Trouble(u8, String);

fn misuse<T>(text: impl Into<String>) -> Result<T, Trouble> {
    Err(Trouble(2, text.into()))
}

/// Runs the program; never panics, whatever the arguments and the files.
pub fn run(arguments: Vec<OsString>) -> ExitCode {
    match answer(arguments).and_then(print) {
        Ok(()) => ExitCode::SUCCESS,
        Err(Trouble(status, line)) => {
            tell(&line);
            ExitCode::from(status)
        }
    }
}

fn tell(line: &str) {
    // Nothing is left to do if standard error is gone as well.
    let _ = writeln!(std::io::stderr(), "nostwier-solve: {line}");
}

fn print(text: String) -> Result<(), Trouble> {
    let mut out = std::io::stdout();
    out.write_all(text.as_bytes())
        .and_then(|()| out.flush())
        .or_else(|error| misuse(format!("cannot write to standard output: {error}")))
}

fn answer(arguments: Vec<OsString>) -> Result<String, Trouble> {
    if arguments.iter().any(|argument| argument == "--help" || argument == "-h") {
        return Ok(HELP.to_string());
    }
    let order = order(arguments)?;
    let file = std::fs::read(&order.case)
        .or_else(|error| misuse(format!("cannot read '{}': {error}", order.case.display())))?;
    let case = check_case(&file).map_err(|refusal| {
        Trouble(1, format!("'{}' is no valid case: {refusal}", order.case.display()))
    })?;
    let scratch = Scratch::new(order.keep.clone())?;
    let call = Call {
        solver: order.solver,
        directory: scratch.path.clone(),
        seconds: order.seconds,
        progress: Progress::on_a_terminal(),
    };
    let solved = solve(&case, &call).map_err(|why| match why {
        Unsolved::NoSchedule(line) | Unsolved::NotFound(line) => Trouble(1, line),
        Unsolved::Fault(line) => Trouble(2, line),
    })?;
    let totals = solved.totals;
    let pair = Pair { case, certificate: solved.certificate };
    std::fs::write(&order.certificate, pair.certificate_file()).or_else(|error| {
        misuse(format!("cannot write '{}': {error}", order.certificate.display()))
    })?;
    for remark in solved.remarks {
        tell(&remark);
    }
    Ok(format!("cost {}\nbound {}\ngap {}\n", totals.cost, totals.bound, totals.gap))
}

fn order(arguments: Vec<OsString>) -> Result<Order, Trouble> {
    let mut case = None;
    let mut certificate = None;
    let mut solver = Solver::Glpsol;
    let mut keep = None;
    let mut seconds = 20;
    let mut left = arguments.into_iter();
    while let Some(argument) = left.next() {
        let mut value = |option: &str| match left.next() {
            Some(value) => Ok(value),
            None => misuse(format!("{option} wants a value; see --help")),
        };
        match argument.to_str() {
            Some("-o") => certificate = Some(PathBuf::from(value("-o")?)),
            Some("--keep") => keep = Some(PathBuf::from(value("--keep")?)),
            Some("--solver") => solver = solver_named(&value("--solver")?)?,
            Some("--seconds") => seconds = seconds_in(&value("--seconds")?)?,
            Some(option) if option.starts_with('-') => {
                return misuse(format!("no option '{}'; see --help", option.escape_debug()));
            }
            _ if case.is_some() => return misuse("more than one CASE; see --help"),
            _ => case = Some(PathBuf::from(argument)),
        }
    }
    match (case, certificate) {
        (Some(case), Some(certificate)) => Ok(Order { case, certificate, solver, keep, seconds }),
        (None, _) => misuse("no CASE; see --help"),
        (_, None) => misuse("no -o CERT; see --help"),
    }
}

fn solver_named(name: &OsString) -> Result<Solver, Trouble> {
    match Solver::ALL.into_iter().find(|solver| name == solver.name()) {
        Some(solver) => Ok(solver),
        None => misuse("--solver wants glpsol, clp or cbc"),
    }
}

fn seconds_in(text: &OsString) -> Result<u32, Trouble> {
    match text.to_str().and_then(|text| text.parse().ok()) {
        Some(seconds) if seconds > 0 => Ok(seconds),
        _ => misuse("--seconds wants a number above 0"),
    }
}

/// The directory that programme and answers go to; one that nobody asked to
/// keep goes away again.
struct Scratch {
    path: PathBuf,
    passing: bool,
}

impl Scratch {
    fn new(keep: Option<PathBuf>) -> Result<Scratch, Trouble> {
        let passing = keep.is_none();
        let name = format!("nostwier-solve-{}", std::process::id());
        let path = keep.unwrap_or_else(|| std::env::temp_dir().join(name));
        // One of ours must be new: nobody else's files are to be removed.
        let made =
            if passing { std::fs::create_dir(&path) } else { std::fs::create_dir_all(&path) };
        match made {
            Ok(()) => Ok(Scratch { path, passing }),
            Err(error) => misuse(format!("cannot make '{}': {error}", path.display())),
        }
    }
}

impl Drop for Scratch {
    fn drop(&mut self) {
        if self.passing {
            // What cannot be removed is left to the system's own cleaning.
            let _ = std::fs::remove_dir_all(&self.path);
        }
    }
}
