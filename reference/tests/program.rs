//! The subcommands, run as a user runs them.

mod common;

use nostwier_reference::damage::{every_damage, random_harm};
use nostwier_reference::generate::{pair_of_counts, Pair};
use nostwier_reference::layout::{Counts, Version, MOST_FLOWGATES, MOST_RESOURCES, MOST_ZONES};
use nostwier_reference::random::Random;
use nostwier_reference::worked;
use std::io::Write;
use std::path::PathBuf;
use std::process::{Command, Output, Stdio};

const SUBCOMMANDS: [&str; 10] = [
    "check",
    "case",
    "prices",
    "charges",
    "read-case",
    "read-certificate",
    "write-case",
    "write-certificate",
    "generate",
    "vectors",
];

fn run(arguments: &[&str], input: &[u8]) -> Output {
    let mut child = Command::new(env!("CARGO_BIN_EXE_nostwier-reference"))
        .args(arguments)
        .stdin(Stdio::piped())
        .stdout(Stdio::piped())
        .stderr(Stdio::piped())
        .spawn()
        .expect("the program starts");
    // A program that stops reading early closes its end; that is its right.
    let _ = child.stdin.take().expect("piped").write_all(input);
    child.wait_with_output().expect("the program ends")
}

fn text(bytes: &[u8]) -> String {
    String::from_utf8(bytes.to_vec()).expect("text")
}

/// Standard output of a run that goes well.
fn good(arguments: &[&str], input: &[u8]) -> Vec<u8> {
    let output = run(arguments, input);
    assert_eq!(text(&output.stderr), "", "{arguments:?}");
    assert!(output.status.success(), "{arguments:?}");
    output.stdout
}

/// The refusal printed, alone on its line, with status 1.
fn refusal(arguments: &[&str], input: &[u8]) -> String {
    let output = run(arguments, input);
    assert_eq!(output.status.code(), Some(1), "{arguments:?}");
    assert_eq!(text(&output.stderr), "");
    text(&output.stdout)
}

/// What the one line tells of a fault of use, with status 2.
fn fault(arguments: &[&str], input: &[u8]) -> String {
    let output = run(arguments, input);
    assert_eq!(output.status.code(), Some(2), "{arguments:?}");
    assert_eq!(text(&output.stdout), "", "{arguments:?}");
    let line = text(&output.stderr);
    assert_eq!(line.lines().count(), 1, "{arguments:?}: {line}");
    let told = line.strip_prefix("nostwier-reference: ").expect("its own name");
    told.strip_suffix('\n').expect("a whole line").to_string()
}

fn joined(pair: &Pair) -> Vec<u8> {
    [pair.case_file(), pair.certificate_file()].concat()
}

fn numbers(bytes: &[u8]) -> Vec<i64> {
    text(bytes).lines().map(|line| line.parse().expect("a number")).collect()
}

/// A directory of its own for one test, empty.
fn scratch(name: &str) -> PathBuf {
    let path = PathBuf::from(env!("CARGO_TARGET_TMPDIR")).join(name);
    let _ = std::fs::remove_dir_all(&path);
    path
}

#[test]
fn check_prints_the_worked_interval() {
    let expected = common::program_text(&worked::pair());
    assert_eq!(text(&good(&["check"], &joined(&worked::pair()))), expected);
}

#[test]
fn check_prints_a_line_per_resource_and_zone() {
    let counts = Counts { resources: MOST_RESOURCES, zones: MOST_ZONES, flowgates: MOST_FLOWGATES };
    let pair = pair_of_counts(&mut Random::new(41), Version::ONE, counts);
    let printed = text(&good(&["check"], &joined(&pair)));
    let lines: Vec<&str> = printed.lines().collect();
    assert_eq!(lines.len(), 3 + 64 + 8);
    assert!(lines[66].starts_with("64 ") && lines[66].split(' ').count() == 8);
    assert!(lines[74].starts_with("zone 8 ") && lines[74].split(' ').count() == 6);
}

#[test]
fn check_prints_refusals() {
    assert_eq!(refusal(&["check"], &[]), "refused 1\n");
    assert_eq!(refusal(&["check"], &[0; 32_769]), "refused 17\n");
    let mut pair = worked::pair();
    pair.certificate.amounts[4] = 1;
    assert_eq!(refusal(&["check"], &joined(&pair)), "refused 14 1\n");
    pair.certificate.amounts[3] = 1;
    assert_eq!(refusal(&["check"], &joined(&pair)), "refused 13 4\n");
}

#[test]
fn case_prints_accepted_or_the_refusal() {
    let case = worked::pair().case_file();
    assert_eq!(good(&["case"], &case), b"accepted\n");
    assert_eq!(refusal(&["case"], &case[1..]), "refused 1\n");
    assert_eq!(refusal(&["case"], &joined(&worked::pair())), "refused 1\n");
}

#[test]
fn prices_and_charges_print_a_number_a_line() {
    let counts = Counts { resources: 5, zones: 3, flowgates: 2 };
    let pair = pair_of_counts(&mut Random::new(42), Version::ONE, counts);
    let printed = numbers(&good(&["prices"], &joined(&pair)));
    assert_eq!(printed.len(), 5 + 4 * 3);
    let printed = numbers(&good(&["charges"], &joined(&pair)));
    assert_eq!(printed.len(), 21 + 4 * 3 + 2 + 19 * 5);
    let gap = common::check(&pair).expect("accepted").gap;
    assert_eq!(printed.iter().sum::<i64>(), gap);
    for subcommand in ["prices", "charges"] {
        assert_eq!(refusal(&[subcommand], &[1; 200]), "refused 1\n");
        assert_eq!(refusal(&[subcommand, "--buffer", "16"], &joined(&pair)), "refused 15\n");
    }
    assert_eq!(numbers(&good(&["prices", "--buffer", "17"], &joined(&pair))).len(), 17);
}

#[test]
fn reading_and_writing_go_round() {
    let pair = pair_of_counts(
        &mut Random::new(43),
        Version::ONE,
        Counts { resources: 3, zones: 2, flowgates: 1 },
    );
    let case = pair.case_file();
    assert_eq!(good(&["write-case"], &good(&["read-case"], &case)), case);
    let certificate = pair.certificate_file();
    let listed = good(&["read-certificate"], &certificate);
    assert_eq!(good(&["write-certificate"], &listed), certificate);
    let size = certificate.len().to_string();
    assert_eq!(good(&["write-certificate", "--buffer", &size], &listed), certificate);
}

#[test]
fn readers_and_writers_print_refusals() {
    let pair = worked::pair();
    assert_eq!(refusal(&["read-case"], b"no case"), "refused 1\n");
    assert_eq!(refusal(&["read-certificate"], b"none"), "refused 8\n");
    assert_eq!(refusal(&["read-case", "--buffer", "94"], &pair.case_file()), "refused 15\n");
    for subcommand in ["write-case", "write-certificate"] {
        assert_eq!(refusal(&[subcommand], b""), "refused 16\n");
        assert_eq!(refusal(&[subcommand], b"1\n1\n"), "refused 16\n");
        assert_eq!(refusal(&[subcommand], b"0\n1\n1\n"), "refused 3\n");
        assert_eq!(refusal(&[subcommand], b"1\n1\n1\n"), "refused 16\n");
    }
}

#[test]
fn text_that_is_no_number_is_a_fault() {
    for subcommand in ["write-case", "write-certificate"] {
        let no_number = |line| format!("line {line} is not a signed 64-bit number");
        assert_eq!(fault(&[subcommand], b"1\none\n"), no_number(2));
        assert_eq!(fault(&[subcommand], b"9223372036854775808\n"), no_number(1));
        assert_eq!(fault(&[subcommand], b"1\n\n1\n"), no_number(2));
        assert_eq!(fault(&[subcommand], &[0xff, 0xfe]), "standard input is not text");
    }
}

#[test]
fn every_subcommand_has_help_and_refuses_odd_arguments() {
    let general = text(&good(&["--help"], b""));
    for subcommand in SUBCOMMANDS {
        assert!(general.contains(subcommand));
        let help = text(&good(&[subcommand, "--help"], b""));
        assert!(help.starts_with(&format!("Usage: nostwier-reference {subcommand}")));
        let [odd, many, none] = [&["--odd"][..], &["--buffer", "many"], &["--buffer"]]
            .map(|more| fault(&[&[subcommand][..], more].concat(), b""));
        let wanted = match subcommand {
            "generate" => ["generate wants SEED COUNT DIR; see generate --help"; 3],
            "vectors" => [
                "vectors wants SEED COUNT OPERATION..; see vectors --help",
                "SEED is not an unsigned 64-bit number",
                "vectors wants SEED COUNT OPERATION..; see vectors --help",
            ],
            "check" | "case" => [
                "unexpected argument '--odd'",
                "unexpected argument '--buffer'",
                "unexpected argument '--buffer'",
            ],
            _ => [
                "unexpected argument '--odd'",
                "--buffer wants a number from 0 to 65536",
                "--buffer wants a number",
            ],
        };
        assert_eq!([odd, many, none], wanted, "{subcommand}");
    }
    assert_eq!(fault(&[], b""), "no subcommand; see --help");
    assert_eq!(fault(&["chek"], b""), "no subcommand 'chek'; see --help");
}

#[test]
fn no_input_makes_a_subcommand_panic() {
    let mut random = Random::new(44);
    let pair = worked::pair();
    for _ in 0..15 {
        let (case, certificate) = random_harm(&mut random, &pair);
        let inputs = [case.clone(), [case, certificate.clone()].concat(), certificate];
        for (subcommand, input) in SUBCOMMANDS[..8].iter().zip(inputs.iter().cycle()) {
            let output = run(&[subcommand], input);
            let told = [&output.stdout[..], &output.stderr].concat();
            match output.status.code() {
                Some(0) => assert_eq!(output.stderr, b""),
                Some(1 | 2) => assert_eq!(text(&told).lines().count(), 1, "{subcommand}"),
                other => panic!("{subcommand} ended with {other:?}: {}", text(&told)),
            }
        }
    }
}

#[cfg(unix)]
#[test]
fn arguments_that_are_not_text_are_a_fault() {
    use std::os::unix::ffi::OsStrExt;
    let odd = std::ffi::OsStr::from_bytes(&[0xff, b'\n']);
    let output = Command::new(env!("CARGO_BIN_EXE_nostwier-reference"))
        .arg(odd)
        .stdin(Stdio::null())
        .output()
        .expect("the program starts");
    assert_eq!(output.status.code(), Some(2));
    assert_eq!(String::from_utf8_lossy(&output.stderr).lines().count(), 1);
}

#[test]
fn generate_writes_the_same_files_for_the_same_seed() {
    let (one, other) = (scratch("generate-one"), scratch("generate-other"));
    for directory in [&one, &other] {
        let directory = directory.to_str().expect("text");
        good(&["generate", "5", "12", directory], b"");
    }
    let mut names: Vec<String> = std::fs::read_dir(&one)
        .expect("made")
        .map(|entry| entry.expect("readable").file_name().into_string().expect("text"))
        .collect();
    names.sort();
    assert_eq!(names.len(), 24);
    assert!(names.contains(&"1.case".to_string()) && names.contains(&"12.cert".to_string()));
    for name in names {
        let read = |directory: &PathBuf| std::fs::read(directory.join(&name)).expect("there");
        assert_eq!(read(&one), read(&other), "{name}");
    }
}

#[test]
fn generate_keeps_to_its_options() {
    let directory = scratch("generate-accepted");
    let path = directory.to_str().expect("text");
    good(&["generate", "6", "9", path, "--accepted", "--size", "3", "2", "1"], b"");
    for index in 1..=9 {
        let read = |kind| std::fs::read(directory.join(format!("{index}.{kind}"))).expect("there");
        let input = [read("case"), read("cert")].concat();
        assert_eq!(input[5..8], [3, 2, 1]);
        good(&["check"], &input);
    }
    let directory = scratch("generate-systematic");
    let path = directory.to_str().expect("text");
    good(&["generate", "6", "1", path, "--systematic", "--size", "1", "1", "0"], b"");
    let counts = Counts { resources: 1, zones: 1, flowgates: 0 };
    let damages = every_damage(&pair_of_counts(&mut Random::new(6), Version::ONE, counts));
    let made = std::fs::read_dir(&directory).expect("made").count();
    assert_eq!(made, 2 * (damages.len() + 1));
}

#[test]
fn generate_tells_what_is_wrong() {
    let directory = scratch("generate-wrong");
    let path = directory.to_str().expect("text");
    let wanted = "generate wants SEED COUNT DIR; see generate --help";
    assert_eq!(fault(&["generate"], b""), wanted);
    let wanted = "SEED is not an unsigned 64-bit number";
    assert_eq!(fault(&["generate", "x", "1", path], b""), wanted);
    let wanted = "COUNT is not a number from 0 to 4294967295";
    assert_eq!(fault(&["generate", "1", "-1", path], b""), wanted);
    let wanted = "--size wants 1 to 64 resources, 1 to 8 zones, 0 to 12 flowgates";
    for [resources, zones, flowgates] in
        [["65", "1", "0"], ["64", "9", "12"], ["64", "8", "13"], ["1", "1", "16"], ["1", "1", "-1"]]
    {
        let size = ["generate", "1", "1", path, "--size", resources, zones, flowgates];
        assert_eq!(fault(&size, b""), wanted, "{size:?}");
    }
    let wanted = "--size wants three numbers";
    assert_eq!(fault(&["generate", "1", "1", path, "--size", "1"], b""), wanted);
    assert!(!directory.exists());
    std::fs::create_dir_all(&directory).expect("made");
    let file = directory.join("taken");
    std::fs::write(&file, b"").expect("written");
    let why = std::fs::create_dir_all(&file).expect_err("a file is there");
    let wanted = format!("cannot make '{}': {why}", file.display());
    assert_eq!(fault(&["generate", "1", "1", file.to_str().expect("text")], b""), wanted);
}
