//! Calls of the solvers, and their answers read back.

use crate::solve::mps;
use crate::solve::programme::Programme;
use crate::solve::progress::Progress;
use std::path::PathBuf;
use std::process::{Command, Stdio};

#[derive(Clone, Copy, Debug, PartialEq, Eq)]
pub enum Solver {
    Glpsol,
    Clp,
    Cbc,
}

impl Solver {
    pub const ALL: [Solver; 3] = [Solver::Glpsol, Solver::Clp, Solver::Cbc];

    /// The name of the program, and of the option.
    pub fn name(self) -> &'static str {
        match self {
            Solver::Glpsol => "glpsol",
            Solver::Clp => "clp",
            Solver::Cbc => "cbc",
        }
    }

    fn debian_package(self) -> &'static str {
        match self {
            Solver::Glpsol => "glpk-utils",
            Solver::Clp => "coinor-clp",
            Solver::Cbc => "coinor-cbc",
        }
    }

    /// The arguments that solve `NAME.mps` and write `NAME.out`.
    fn arguments(self, name: &str, whole: bool, seconds: u32) -> Vec<String> {
        let programme = format!("{name}.mps");
        let answer = format!("{name}.out");
        let limit = seconds.to_string();
        let list: Vec<&str> = match self {
            Solver::Glpsol if whole => {
                vec!["--mps", &programme, "--tmlim", &limit, "-w", &answer]
            }
            Solver::Glpsol => vec!["--mps", &programme, "--nomip", "-w", &answer],
            Solver::Clp => {
                vec![&programme, "-printingOptions", "all", "-solve", "-solution", &answer]
            }
            Solver::Cbc => vec![
                &programme,
                "-seconds",
                &limit,
                "-printingOptions",
                "all",
                "-solve",
                "-solution",
                &answer,
            ],
        };
        list.into_iter().map(String::from).collect()
    }
}

/// What a solver answers: a value for each column, a dual for each row.
#[derive(Clone, Debug, PartialEq)]
pub struct Solution {
    pub values: Vec<f64>,
    pub duals: Vec<f64>,
}

/// Why there is no certificate: one line of text.
#[derive(Clone, Debug, PartialEq, Eq)]
pub enum Unsolved {
    /// No schedule keeps every row.
    NoSchedule(String),
    /// There may be one, but none was found.
    NotFound(String),
    /// A solver or a file is missing, or is not as it should be.
    Fault(String),
}

/// What came of the search for whole numbers.
#[derive(Clone, Debug, PartialEq)]
pub struct Whole {
    /// None if the solver has no way to whole numbers, or found none.
    pub solution: Option<Solution>,
    /// Whether the time was over before the search was.
    pub stopped: bool,
}

/// A solver, where its files go, how long it may look for whole numbers, and
/// who is told that it is at work.
#[derive(Clone, Debug)]
pub struct Call {
    pub solver: Solver,
    pub directory: PathBuf,
    pub seconds: u32,
    pub progress: Progress,
}

impl Call {
    /// Solves the programme with fractions allowed.
    pub fn linear(&self, programme: &Programme, name: &str) -> Result<Solution, Unsolved> {
        let answer = self.run(programme, name, false)?;
        let read = match self.solver {
            Solver::Glpsol => read_glpsol_linear(&answer, programme),
            Solver::Clp | Solver::Cbc => read_coin(&answer, programme),
        };
        match read {
            Answer::Solved(solution) => Ok(solution),
            Answer::Stopped(_) => Err(Unsolved::NotFound(format!(
                "{} before it had solved {name}.mps, where fractions are allowed; --seconds N gives \
                 it more",
                self.stopped()
            ))),
            Answer::NoSchedule => Err(Unsolved::NoSchedule(format!(
                "{} finds no schedule that keeps every row of the case",
                self.solver.name()
            ))),
            Answer::Unreadable => {
                Err(fault(format!("cannot read the answer of {}", self.solver.name())))
            }
        }
    }

    /// Solves it in whole numbers.
    pub fn whole(&self, programme: &Programme, name: &str) -> Result<Whole, Unsolved> {
        if self.solver == Solver::Clp {
            return Ok(Whole { solution: None, stopped: false });
        }
        let answer = self.run(programme, name, true)?;
        let read = match self.solver {
            Solver::Glpsol => read_glpsol_whole(&answer, programme),
            Solver::Clp | Solver::Cbc => read_coin(&answer, programme),
        };
        Ok(match read {
            Answer::Solved(solution) => Whole { solution: Some(solution), stopped: false },
            Answer::Stopped(solution) => Whole { solution, stopped: true },
            Answer::NoSchedule | Answer::Unreadable => Whole { solution: None, stopped: false },
        })
    }

    /// That the solver stopped at its time limit, in words.
    pub fn stopped(&self) -> String {
        format!("{} stopped at its time limit ({} s)", self.solver.name(), self.seconds)
    }

    fn run(&self, programme: &Programme, name: &str, whole: bool) -> Result<String, Unsolved> {
        let solver = self.solver.name();
        let file = self.directory.join(format!("{name}.mps"));
        std::fs::write(&file, mps::text(programme, whole))
            .map_err(|error| fault(format!("cannot write '{}': {error}", file.display())))?;
        let most = whole.then_some(self.seconds);
        let output = self
            .progress
            .during(&format!("{solver} solves {name}.mps"), most, || {
                Command::new(solver)
                    .args(self.solver.arguments(name, whole, self.seconds))
                    .current_dir(&self.directory)
                    .stdin(Stdio::null())
                    .output()
            })
            .map_err(|error| fault(self.cannot_start(&error)))?;
        if !output.status.success() {
            return Err(fault(format!("{solver} failed ({})", output.status)));
        }
        std::fs::read_to_string(self.directory.join(format!("{name}.out")))
            .map_err(|error| fault(format!("{solver} left no answer: {error}")))
    }

    fn cannot_start(&self, error: &std::io::Error) -> String {
        let package = self.solver.debian_package();
        format!("cannot start {} (Debian's {package}): {error}", self.solver.name())
    }
}

fn fault(line: String) -> Unsolved {
    Unsolved::Fault(line)
}

#[derive(Clone, Debug, PartialEq)]
enum Answer {
    Solved(Solution),
    /// At the time limit, with the best found by then.
    Stopped(Option<Solution>),
    NoSchedule,
    Unreadable,
}

/// The last field of the lines that begin with `kind`, as numbers.
fn last_fields(text: &str, kind: &str) -> Option<Vec<f64>> {
    let fields = |line: &str| line.split_whitespace().map(String::from).collect::<Vec<_>>();
    text.lines()
        .map(fields)
        .filter(|fields| fields.first().is_some_and(|first| first == kind))
        .map(|fields| fields.last().and_then(|last| last.parse().ok()))
        .collect()
}

/// `s bas ROWS COLUMNS f f COST`, `i ROW STATUS VALUE DUAL`,
/// `j COLUMN STATUS VALUE DUAL`.
fn read_glpsol_linear(text: &str, programme: &Programme) -> Answer {
    let status = text.lines().find(|line| line.starts_with("s bas "));
    let Some(status) = status else {
        return Answer::Unreadable;
    };
    let feasible = status.split_whitespace().skip(4).take(2).all(|letter| letter == "f");
    if !feasible {
        return Answer::NoSchedule;
    }
    // The value stands before the dual.
    let without_duals: String = text
        .lines()
        .filter(|line| line.starts_with("j "))
        .filter_map(|line| line.rsplit_once(' '))
        .map(|(line, _)| format!("{line}\n"))
        .collect();
    solution(last_fields(&without_duals, "j"), last_fields(text, "i"), programme)
}

/// `s mip ROWS COLUMNS STATUS COST`, `j COLUMN VALUE`. There are no duals. The
/// status is o if the best was found, f if the search was stopped with something
/// found, u if it was stopped with nothing.
fn read_glpsol_whole(text: &str, programme: &Programme) -> Answer {
    let status = text.lines().find(|line| line.starts_with("s mip "));
    match status.and_then(|line| line.split_whitespace().nth(4)) {
        Some(letter @ ("o" | "f")) => {
            let no_duals = vec![0.0; programme.rows.len()];
            let read = solution(last_fields(text, "j"), Some(no_duals), programme);
            ended(read, letter == "f")
        }
        Some("u") => Answer::Stopped(None),
        Some(_) => Answer::NoSchedule,
        None => Answer::Unreadable,
    }
}

/// A line that begins with `Optimal` or `Stopped`, then rows and columns, each
/// `INDEX NAME VALUE DUAL`.
fn read_coin(text: &str, programme: &Programme) -> Answer {
    let Some(status) = text.lines().next() else {
        return Answer::Unreadable;
    };
    if status.starts_with("Infeasible") || status.starts_with("Integer infeasible") {
        return Answer::NoSchedule;
    }
    let stopped = status.starts_with("Stopped");
    if !status.starts_with("Optimal") && !stopped {
        return Answer::Unreadable;
    }
    let mut values = vec![0.0; programme.columns.len()];
    let mut duals = vec![0.0; programme.rows.len()];
    for line in text.lines().skip(1) {
        let fields: Vec<&str> = line.split_whitespace().filter(|field| *field != "**").collect();
        let [_, name, value, dual] = fields[..] else {
            return Answer::Unreadable;
        };
        let (Ok(value), Ok(dual)) = (value.parse::<f64>(), dual.parse::<f64>()) else {
            return Answer::Unreadable;
        };
        let (list, number, kept) = match name.split_at_checked(1) {
            Some(("R", number)) => (&mut duals, number, dual),
            Some(("C", number)) => (&mut values, number, value),
            // What makes up for missed rows is nobody's quantity.
            Some(("S" | "X", _)) => continue,
            _ => return Answer::Unreadable,
        };
        let index = number.parse::<usize>().unwrap_or(0).wrapping_sub(1);
        match list.get_mut(index) {
            Some(place) => *place = kept,
            None => return Answer::Unreadable,
        }
    }
    ended(solution(Some(values), Some(duals), programme), stopped)
}

/// What was read, of a solver that was stopped or was not.
fn ended(read: Answer, stopped: bool) -> Answer {
    match read {
        Answer::Solved(solution) if stopped => Answer::Stopped(Some(solution)),
        other => other,
    }
}

/// A solution of the right size, with every number finite.
fn solution(values: Option<Vec<f64>>, duals: Option<Vec<f64>>, programme: &Programme) -> Answer {
    match (values, duals) {
        (Some(mut values), Some(duals))
            if values.len() >= programme.columns.len()
                && duals.len() == programme.rows.len()
                && values.iter().chain(&duals).all(|number| number.is_finite()) =>
        {
            // Behind the programme's own columns stand those for missed rows.
            values.truncate(programme.columns.len());
            Answer::Solved(Solution { values, duals })
        }
        _ => Answer::Unreadable,
    }
}
