//! What can be said of `nostwier-solve` without a solver: the programme it
//! writes, the rounding, and what it tells of wrong use.

use nostwier_reference::case::{flag, Flowgate, Step};
use nostwier_reference::certificate::{first_above_bound, first_broken};
use nostwier_reference::generate::{pair_of_scale, Scale};
use nostwier_reference::layout::{Counts, Version};
use nostwier_reference::random::Random;
use nostwier_reference::solve::programme::Programme;
use nostwier_reference::solve::{mps, rounding};
use nostwier_reference::standing::standings;
use nostwier_reference::worked;
use std::path::{Path, PathBuf};
use std::process::{Command, Output};
use std::sync::{Mutex, MutexGuard, PoisonError};

fn scratch(name: &str) -> PathBuf {
    let path = PathBuf::from(env!("CARGO_TARGET_TMPDIR")).join(name);
    let _ = std::fs::remove_dir_all(&path);
    std::fs::create_dir_all(&path).expect("made");
    path
}

/// A program cannot be started while a child just being started still holds
/// it open for writing, so writing programs and starting them take turns.
static TURN: Mutex<()> = Mutex::new(());

fn turn() -> MutexGuard<'static, ()> {
    TURN.lock().unwrap_or_else(PoisonError::into_inner)
}

fn run(directory: &Path, arguments: &[&str]) -> Output {
    let _turn = turn();
    Command::new(env!("CARGO_BIN_EXE_nostwier-solve"))
        .args(arguments)
        .current_dir(directory)
        .env("PATH", directory)
        .output()
        .expect("the program starts")
}

/// What the one line tells of a failure, with the given exit status.
fn told(directory: &Path, arguments: &[&str], status: i32) -> String {
    let output = run(directory, arguments);
    assert_eq!(output.status.code(), Some(status), "{arguments:?}");
    assert_eq!(output.stdout, b"");
    let line = String::from_utf8(output.stderr).expect("text");
    assert_eq!(line.lines().count(), 1, "{arguments:?}: {line}");
    let told = line.strip_prefix("nostwier-solve: ").expect("its own name");
    told.strip_suffix('\n').expect("a whole line").to_string()
}

#[test]
fn the_programme_of_k_has_its_rows_and_costs() {
    let text = mps::text(&Programme::of_case(&worked::pair().case), false);
    for line in [
        " E  R1",
        " G  R14",
        "    C1        COST           2000000",
        "    C2        COST           3000000",
        "    C2        R1                   1",
        "    C2        R13                 -1",
        "    RHS       R1               60000",
        "    RHS       R10            -100000",
        "    RHS       R13             -65000",
        "    RHS       R14              35000",
        " UP BND       C2               60000",
        " FX BND       C3                   0",
        "ENDATA",
    ] {
        assert!(text.lines().any(|other| other == line), "no line '{line}' in\n{text}");
    }
    assert!(!text.contains("INTORG"));
    assert!(mps::text(&Programme::of_case(&worked::pair().case), true).contains("INTORG"));
}

#[test]
fn a_priced_programme_lets_rows_be_missed_at_their_highest_price() {
    let mut case = worked::pair().case;
    case.counts.flowgates = 1;
    case.flowgates = vec![Flowgate { limit: 5, factors: vec![-60] }];
    let text = mps::text(&Programme::of_case(&case).priced(), false);
    // Row 1 either way, since it is an equation; the others only upwards.
    for line in [
        "    S1        COST         400000000",
        "    S1        R1                   1",
        "    X1        COST         400000000",
        "    X1        R1                  -1",
        "    S10       COST            400000",
        "    S10       R10                  1",
        "    S15       COST         400000000",
        "    S15       R15                  1",
    ] {
        assert!(text.lines().any(|other| other == line), "no line '{line}' in\n{text}");
    }
    assert_eq!(text.matches(" X").count(), 2);
    assert!(!mps::text(&Programme::of_case(&case), false).contains(" S1 "));
}

#[test]
fn a_held_programme_charges_flowgates_to_the_columns() {
    let mut case = worked::pair().case;
    case.counts.flowgates = 1;
    case.flowgates = vec![Flowgate { limit: 5, factors: vec![-60] }];
    let mut prices = vec![0; case.counts.row_count(case.version)];
    prices[9] = 200;
    let text = mps::text(&Programme::of_case(&case).with_flowgate_prices(&prices), false);
    // Each kW relieves the flowgate by 60 thousandths, at 200 cents: 12,000.
    assert!(text.contains("    C1        COST           1988000\n"));
    assert!(text.contains(" G  R10\n"));
    assert_eq!(text.matches("R10 ").count(), 0);
}

#[test]
fn curves_clear_what_the_reserves_bear() {
    let mut case = worked::pair().case;
    case.curves[0][0] = Step { width: 7, price: 5 };
    case.curves[1][0] = Step { width: 30, price: 5 };
    case.resources[0].flags = flag::SPINNING;
    let programme = Programme::of_case(&case);
    let mut amounts = worked::pair().certificate.amounts;
    amounts[6] = 10;
    amounts[1] = 4;
    let cleared = rounding::cleared_to_the_full(&case, &programme, amounts);
    assert_eq!(cleared[..4], [7, 10, 0, 0]);
}

#[test]
fn prices_are_rounded_into_their_range() {
    let counts = Counts { resources: 1, zones: 1, flowgates: 1 };
    let pair = pair_of_scale(&mut Random::new(51), Version::ONE, counts, Scale::COMMON);
    let programme = Programme::of_case(&pair.case);
    let mut duals = vec![0.0; counts.row_count(Version::ONE)];
    duals[0] = -4.000_000_06e8;
    duals[1] = 4.000_000_06e8;
    duals[2] = -0.6;
    duals[3] = 2.5;
    duals[9] = 400_000.6;
    let prices = programme.whole_prices(&duals);
    assert_eq!(prices[..4], [-400_000_000, 400_000_000, 0, 3]);
    assert_eq!(prices[9], 400_000);
}

#[test]
fn a_schedule_a_little_off_is_repaired() {
    let mut random = Random::new(52);
    let mut broken = 0;
    let mut repaired = 0;
    for _ in 0..60 {
        let counts = Counts {
            resources: random.between(2, 20) as usize,
            zones: random.between(1, 4) as usize,
            flowgates: random.between(0, 4) as usize,
        };
        let pair = pair_of_scale(&mut random, Version::ONE, counts, Scale::COMMON);
        let programme = Programme::of_case(&pair.case);
        let mut amounts = pair.certificate.amounts;
        for (amount, bound) in amounts.iter_mut().zip(&programme.bounds) {
            *amount = (*amount + random.between(-1, 1)).clamp(0, *bound);
        }
        broken += usize::from(first_broken(&programme.rows, &amounts).is_some());
        match rounding::repaired(&programme, amounts) {
            Ok(amounts) => {
                assert_eq!(first_broken(&programme.rows, &amounts), None);
                let standings = standings(&pair.case);
                assert_eq!(first_above_bound(&pair.case, &standings, &amounts), None);
                repaired += 1;
            }
            Err(line) => assert!(line.contains("stays broken")),
        }
    }
    assert!(broken > 40 && repaired > 54, "{broken} broken, {repaired} repaired, of 60");
}

#[test]
fn a_schedule_that_cannot_be_repaired_is_told() {
    let mut pair = worked::pair();
    pair.case.demand = 65_001;
    let programme = Programme::of_case(&pair.case);
    let told = rounding::repaired(&programme, pair.certificate.amounts);
    assert!(told.is_err_and(|line| line.contains("no whole-kW schedule")));
}

#[test]
fn wrong_use_is_told_in_a_line() {
    let directory = scratch("solve-wrong-use");
    std::fs::write(directory.join("k.case"), worked::pair().case_file()).expect("written");
    std::fs::write(directory.join("bad.case"), b"no case").expect("written");
    let missing = std::fs::read(directory.join("none.case")).expect_err("not there");
    let taken = std::fs::create_dir_all(directory.join("k.case")).expect_err("a file is there");
    let unstarted =
        |solver, package| format!("cannot start {solver} (Debian's {package}): {missing}");
    for (options, status, line) in [
        ("", 2, "no CASE; see --help"),
        ("k.case", 2, "no -o CERT; see --help"),
        ("-o k.cert", 2, "no CASE; see --help"),
        ("k.case -o", 2, "-o wants a value; see --help"),
        ("k.case k.case -o k.cert", 2, "more than one CASE; see --help"),
        ("k.case -o k.cert --odd", 2, "no option '--odd'; see --help"),
        ("k.case -o k.cert --solver abacus", 2, "--solver wants glpsol, clp or cbc"),
        ("k.case -o k.cert --seconds 0", 2, "--seconds wants a number above 0"),
        ("none.case -o k.cert", 2, &format!("cannot read 'none.case': {missing}")),
        ("bad.case -o k.cert", 1, "'bad.case' is no valid case: refused 1"),
        ("k.case -o k.cert --keep k.case", 2, &format!("cannot make 'k.case': {taken}")),
        // The search path holds no solver.
        ("k.case -o k.cert", 2, &unstarted("glpsol", "glpk-utils")),
        ("k.case -o k.cert --solver clp", 2, &unstarted("clp", "coinor-clp")),
        ("k.case -o k.cert --solver cbc", 2, &unstarted("cbc", "coinor-cbc")),
    ] {
        let arguments: Vec<&str> = options.split_whitespace().collect();
        assert_eq!(told(&directory, &arguments, status), line, "{options}");
    }
    assert!(!directory.join("k.cert").exists());
}

/// A directory with K and a stand-in for each solver that runs this script,
/// in which `$answer` is the file that the solver should write.
#[cfg(unix)]
fn with_stand_ins(name: &str, script: &str) -> PathBuf {
    use std::os::unix::fs::PermissionsExt;
    let directory = scratch(name);
    let _turn = turn();
    std::fs::write(directory.join("k.case"), worked::pair().case_file()).expect("written");
    for solver in ["glpsol", "clp", "cbc"] {
        let path = directory.join(solver);
        let script = format!("#!/bin/sh\nfor answer; do :; done\n{script}\n");
        std::fs::write(&path, script).expect("written");
        std::fs::set_permissions(&path, std::fs::Permissions::from_mode(0o755)).expect("set");
    }
    directory
}

#[cfg(unix)]
#[test]
fn odd_answers_of_a_solver_are_told_in_a_line() {
    const UNREAD: &str = "cannot read the answer of SOLVER";
    let missing = std::fs::read(scratch("solve-odd").join("none")).expect_err("not there");
    for (index, (script, line)) in [
        ("exit 3", "SOLVER failed (exit status: 3)"),
        ("exit 0", &format!("SOLVER left no answer: {missing}")),
        ("echo > $answer", UNREAD),
        (
            "printf '\\377\\376' > $answer",
            "SOLVER left no answer: stream did not contain valid UTF-8",
        ),
        ("echo 's bas 14 30 f f 0' > $answer", UNREAD),
        ("echo 'Optimal - objective value 0' > $answer; echo '0 R1' >> $answer", UNREAD),
        ("echo 'Optimal' > $answer; echo '0 R99999 0 0' >> $answer", UNREAD),
        ("echo 'Optimal' > $answer; echo '0 C1 nan 0' >> $answer", UNREAD),
    ]
    .into_iter()
    .enumerate()
    {
        let directory = with_stand_ins(&format!("solve-odd-{index}"), script);
        for solver in ["glpsol", "clp", "cbc"] {
            let told = told(&directory, &["k.case", "-o", "k.cert", "--solver", solver], 2);
            assert_eq!(told, line.replace("SOLVER", solver), "{script}");
        }
        assert!(!directory.join("k.cert").exists());
    }
}

#[cfg(unix)]
#[test]
fn an_answer_too_far_from_any_schedule_is_told() {
    // All zero: nothing near it meets demand.
    let directory = with_stand_ins("solve-far", "echo 'Optimal' > $answer");
    let line = told(&directory, &["k.case", "-o", "k.cert", "--solver", "clp"], 1);
    let wanted = "no whole-kW schedule was found near the solver's; row 1 stays broken";
    assert_eq!(line, wanted);
}

/// The program's text on standard output and error, when it goes well.
#[cfg(unix)]
fn solved(directory: &Path, solver: &str) -> (String, String) {
    let output = run(directory, &["k.case", "-o", "k.cert", "--solver", solver, "--seconds", "7"]);
    let [out, told] =
        [output.stdout, output.stderr].map(|text| String::from_utf8(text).expect("text"));
    assert_eq!(output.status.code(), Some(0), "{told}");
    (out, told)
}

#[cfg(unix)]
const K_TOTALS: &str = "cost 140000000000\nbound 140000000000\ngap 0\n";

/// Answers for K as each solver writes them: the best with fractions, and in
/// whole numbers what `whole` says.
#[cfg(unix)]
fn answers_for_k(whole: &str) -> String {
    format!(
        "list() {{ n=$1; while [ $n -le $2 ]; do echo $3 $n $4; n=$((n + 1)); done; }}
        glpsol_relaxed() {{
            echo s bas 14 30 f f 0; echo i 1 s 60000 3000000; list 2 14 i 'b 0 0'
            echo j 1 u 40000 -1000000; echo j 2 b 20000 0; list 3 30 j 'l 0 0'
        }}
        found() {{ echo s mip 14 30 $1 0; echo j 1 40000; echo j 2 20000; list 3 30 j 0; }}
        coin() {{ echo $1; echo 0 R1 60000 3000000; echo 0 C1 40000 0; echo 1 C2 20000 0; }}
        case $0.$answer in
            *glpsol.relaxed.out) glpsol_relaxed;;
            *relaxed.out) coin Optimal;;
            {whole}
        esac > $answer"
    )
}

#[cfg(unix)]
#[test]
fn a_solver_that_stops_at_its_time_limit_is_told() {
    for (index, (whole, wanted)) in [
        ("*glpsol*) found o;; *) coin Optimal;;", None),
        (
            "*glpsol*) found f;; *) coin 'Stopped on time';;",
            Some("before it was sure of the cheapest schedule in whole kW"),
        ),
    ]
    .into_iter()
    .enumerate()
    {
        let directory = with_stand_ins(&format!("solve-time-{index}"), &answers_for_k(whole));
        for solver in ["glpsol", "cbc"] {
            let (out, told) = solved(&directory, solver);
            assert_eq!(out, K_TOTALS);
            let line = |found| {
                let limit = format!("{solver} stopped at its time limit (7 s)");
                format!("nostwier-solve: {limit} {found}")
            };
            assert!(told.starts_with(&wanted.map_or(String::new(), line)), "{solver}: {told}");
            assert_eq!(told.lines().count(), usize::from(wanted.is_some()), "{told}");
        }
        // It has no whole numbers to be stopped at.
        assert_eq!(solved(&directory, "clp"), (K_TOTALS.to_string(), String::new()));
    }
}

#[cfg(unix)]
#[test]
fn a_solver_that_stops_with_nothing_leaves_it_to_the_rounding() {
    let directory =
        with_stand_ins("solve-time-nothing", &answers_for_k("*) echo s mip 14 30 u 0;;"));
    let (out, told) = solved(&directory, "glpsol");
    assert_eq!(out, K_TOTALS);
    assert!(
        told.contains("(7 s) before it had found a schedule in whole kW; --seconds N"),
        "{told}"
    );
}

#[cfg(unix)]
#[test]
fn a_linear_programme_that_is_stopped_leaves_no_certificate() {
    let directory = with_stand_ins("solve-time-linear", "echo 'Stopped on time' > $answer");
    let line =
        told(&directory, &["k.case", "-o", "k.cert", "--solver", "cbc", "--seconds", "3"], 1);
    assert!(line.starts_with("cbc stopped at its time limit (3 s) before it had solved"), "{line}");
    assert!(!directory.join("k.cert").exists());
}

/// K with a second resource, dearer, that may give 0 to 25,000 kW.
#[cfg(unix)]
fn k_of_two() -> Vec<u8> {
    let mut pair = worked::pair();
    let mut second = pair.case.resources[0].clone();
    second.economic.minimum = 0;
    second.output = 500;
    second.initial = 10_000;
    second.steps[0] = Step { width: 100_000, price: 4_000 };
    second.steps[1] = Step { width: 0, price: 0 };
    pair.case.resources.push(second);
    pair.case.counts.resources = 2;
    pair.case_file()
}

#[cfg(unix)]
#[test]
fn the_better_of_the_solvers_schedule_and_the_rounded_one_is_kept() {
    // The cheaper resource gives 60,000 kW at the best, and 40 kW less in a
    // worse answer; the best stands in one answer, then in the other.
    let best = "echo Optimal; echo 0 R1 0 3000000; echo 0 C1 40000 0; echo 1 C2 20000 0";
    let worse =
        "echo Optimal; echo 0 R1 0 3000000; echo 0 C1 40000 0; echo 1 C2 19960 0; echo 2 C15 40 0";
    for (index, (relaxed, whole)) in
        [(best, worse), (worse, best), (best, best), (worse, worse)].into_iter().enumerate()
    {
        let script =
            format!("case $answer in relaxed.out) {relaxed};; *) {whole};; esac > $answer");
        let directory = with_stand_ins(&format!("solve-better-{index}"), &script);
        std::fs::write(directory.join("k.case"), k_of_two()).expect("written");
        let (out, _) = solved(&directory, "cbc");
        // 40 kW at 1,000 cents more.
        let wanted = if index < 3 {
            K_TOTALS
        } else {
            "cost 140040000000\nbound 140000000000\ngap 40000000\n"
        };
        assert_eq!(out, wanted, "{index}");
    }
}

#[cfg(unix)]
#[test]
fn a_case_without_schedule_is_told_with_what_is_not_on_line() {
    let directory = with_stand_ins("solve-off-line", "echo 'Infeasible' > $answer");
    let mut pair = worked::pair();
    for (output, wanted) in [
        (499, "can give 0 to 0 kW in this interval. Not on-line: 1 (docs/MODEL.md says"),
        (500, "can give 35000 to 65000 kW in this interval. Not on-line: none (docs/MODEL.md says"),
    ] {
        pair.case.resources[0].output = output;
        std::fs::write(directory.join("k.case"), pair.case_file()).expect("written");
        let line = told(&directory, &["k.case", "-o", "k.cert", "--solver", "clp"], 1);
        assert!(line.starts_with(
            "clp finds no schedule that keeps every row of the case. Demand is 60000 kW;"
        ));
        assert!(line.contains(wanted), "{line}");
    }
}

#[test]
fn help_names_every_option() {
    let output = run(&scratch("solve-help"), &["--help"]);
    assert!(output.status.success());
    let text = String::from_utf8(output.stdout).expect("text");
    for option in ["CASE", "-o CERT", "--solver", "--keep", "--seconds"] {
        assert!(text.contains(option));
    }
}
