//! The subcommands of `nostwier-reference`.

use crate::damage;
use crate::generate::{random_counts, varied_pair};
use crate::layout::{Counts, Version, MOST_FLOWGATES, MOST_RESOURCES, MOST_ZONES};
use crate::operations;
use crate::program::{self, LONGEST_INPUT};
use crate::random::Random;
use crate::refusal::Failure;
use crate::vectors::{corpus_calls, Call, Files, Operation, Source};
use std::ffi::OsString;
use std::io::{BufWriter, Read, Write};
use std::path::{Path, PathBuf};
use std::process::ExitCode;

const HELP: &str = "\
Usage: nostwier-reference SUBCOMMAND [--help]

Reads standard input and prints to standard output.
  check              case then certificate: what the paper's program prints
  case               a case: 'accepted' or 'refused N'
  prices             case then certificate: LMPs and zone prices, a number a line
  charges            case then certificate: the charges, a number a line
  read-case          a case: its numbers, a line each
  read-certificate   a certificate: its numbers, a line each
  write-case         numbers, a line each: the bytes of the case
  write-certificate  numbers, a line each: the bytes of the certificate
  generate           random cases and certificates, into files
  vectors            calls with their expected answers, for a host of the library

A refusal is printed as 'refused N' or 'refused N PLACE' with exit status 1;
a fault of use is told on standard error with exit status 2.
";

/// The most numbers or bytes any operation writes, with room to spare.
const AMPLE: usize = 1 << 16;

/// How a subcommand ends other than well.
#[derive(Debug)]
pub enum Trouble {
    /// The paper's refusal: a line on standard output, status 1.
    Refused(String),
    /// A fault of use or of the machine: a line on standard error, status 2.
    Fault(String),
}

impl<T: Into<Failure>> From<T> for Trouble {
    fn from(failure: T) -> Trouble {
        match failure.into() {
            Failure::Refused(refusal) => Trouble::Refused(refusal.to_string()),
            fault => Trouble::Fault(fault.to_string()),
        }
    }
}

fn fault<T>(text: impl Into<String>) -> Result<T, Trouble> {
    Err(Trouble::Fault(text.into()))
}

/// Runs one subcommand; never panics, whatever the arguments and the input.
pub fn run(arguments: Vec<OsString>) -> ExitCode {
    let arguments: Vec<String> =
        arguments.iter().map(|argument| argument.to_string_lossy().into_owned()).collect();
    let ended = answer(&arguments).and_then(|bytes| print(&bytes));
    match ended {
        Ok(()) => ExitCode::SUCCESS,
        Err(Trouble::Refused(line)) => match print(format!("{line}\n").as_bytes()) {
            Ok(()) => ExitCode::from(1),
            Err(_) => ExitCode::from(2),
        },
        Err(Trouble::Fault(line)) => {
            // Nothing is left to do if standard error is gone as well.
            let _ = writeln!(std::io::stderr(), "nostwier-reference: {line}");
            ExitCode::from(2)
        }
    }
}

fn print(bytes: &[u8]) -> Result<(), Trouble> {
    let mut out = std::io::stdout();
    match out.write_all(bytes).and_then(|()| out.flush()) {
        Ok(()) => Ok(()),
        Err(error) => fault(format!("cannot write to standard output: {error}")),
    }
}

/// What the subcommand prints.
fn answer(arguments: &[String]) -> Result<Vec<u8>, Trouble> {
    let Some((subcommand, rest)) = arguments.split_first() else {
        return fault("no subcommand; see --help");
    };
    if subcommand == "--help" || subcommand == "-h" {
        return Ok(HELP.into());
    }
    let Some(subcommand) = SUBCOMMANDS.iter().find(|one| one.name == subcommand) else {
        return fault(format!("no subcommand '{}'; see --help", subcommand.escape_debug()));
    };
    if rest.iter().any(|argument| argument == "--help" || argument == "-h") {
        return Ok(subcommand.help.into());
    }
    (subcommand.run)(rest)
}

struct Subcommand {
    name: &'static str,
    help: &'static str,
    run: fn(&[String]) -> Result<Vec<u8>, Trouble>,
}

const SUBCOMMANDS: [Subcommand; 10] = [
    Subcommand {
        name: "check",
        help: "\
Usage: nostwier-reference check < CASE-THEN-CERTIFICATE

Prints cost, bound and gap, a line per resource (number, on-line, e g c s o,
LMP) and a line per zone (number, regulating, spinning, supplemental,
short-term price); or the refusal.
",
        run: check,
    },
    Subcommand {
        name: "case",
        help: "\
Usage: nostwier-reference case < CASE

Prints 'accepted', or 'refused N' with N from 1 to 7.
",
        run: case,
    },
    Subcommand {
        name: "prices",
        help: "\
Usage: nostwier-reference prices [--buffer NUMBERS] < CASE-THEN-CERTIFICATE

Prints a number a line, thousandths of a cent per MWh: an LMP per resource, then
per zone regulating, spinning, supplemental and short-term. With --buffer, the
lent buffer holds so many numbers.
",
        run: prices,
    },
    Subcommand {
        name: "charges",
        help: "\
Usage: nostwier-reference charges [--buffer NUMBERS] < CASE-THEN-CERTIFICATE

Prints a number a line, grains: the charges of the rows; per resource those of
ten energy steps, g, c, s and o; those of sixteen curve steps. With --buffer,
the lent buffer holds so many numbers.
",
        run: charges,
    },
    Subcommand {
        name: "read-case",
        help: "\
Usage: nostwier-reference read-case [--buffer NUMBERS] < CASE

Prints every field but length and version, a number a line. With --buffer, the
lent buffer holds so many numbers.
",
        run: read_case,
    },
    Subcommand {
        name: "read-certificate",
        help: "\
Usage: nostwier-reference read-certificate [--buffer NUMBERS] < CERTIFICATE

Prints every field but length and version, a number a line. With --buffer, the
lent buffer holds so many numbers.
",
        run: read_certificate,
    },
    Subcommand {
        name: "write-case",
        help: "\
Usage: nostwier-reference write-case [--buffer BYTES] < NUMBERS > CASE

Takes every field but length and version, a number a line. With --buffer, the
lent buffer holds so many bytes.
",
        run: write_case,
    },
    Subcommand {
        name: "write-certificate",
        help: "\
Usage: nostwier-reference write-certificate [--buffer BYTES] < NUMBERS > CERTIFICATE

Takes every field but length and version, a number a line. With --buffer, the
lent buffer holds so many bytes.
",
        run: write_certificate,
    },
    Subcommand {
        name: "generate",
        help: "\
Usage: nostwier-reference generate SEED COUNT DIR [--accepted | --systematic]
                                   [--size R Z F]

Writes 1.case, 1.cert and so on into DIR; the same seed gives the same files.
Three of four pairs are accepted, the others are damaged in some way.
  --accepted     every pair is accepted
  --systematic   COUNT pairs are drawn, and each is written after all its
                 systematic damages: fields past their ends, cuts, broken rows
  --size R Z F   so many resources, zones and flowgates in every case
",
        run: generate,
    },
    Subcommand {
        name: "vectors",
        help: "\
Usage: nostwier-reference vectors SEED COUNT [--corpus DIR] OPERATION..

Writes COUNT calls with their expected answers as binary records, the operations
taking turns; the same seed gives the same records. The operations are case,
certificate, prices, charges, read-case, read-certificate, write-case and
write-certificate. The README of the reference has the form of a record.
  --corpus DIR   first the calls of each operation with every pair of files
                 NAME.case and NAME.cert in DIR; COUNT does not count them
",
        run: vectors,
    },
];

fn check(arguments: &[String]) -> Result<Vec<u8>, Trouble> {
    no_arguments(arguments)?;
    // One byte past the longest input shows that it is too long.
    let input = read_input(Some(LONGEST_INPUT as u64 + 1))?;
    Ok(program::text(&input)?.into_bytes())
}

fn case(arguments: &[String]) -> Result<Vec<u8>, Trouble> {
    no_arguments(arguments)?;
    crate::check_case(&read_input(None)?)?;
    Ok(b"accepted\n".to_vec())
}

fn prices(arguments: &[String]) -> Result<Vec<u8>, Trouble> {
    let mut buffer = lent_buffer::<i64>(arguments)?;
    let input = read_input(None)?;
    let (case, certificate) = program::split(&input);
    let count = operations::prices(case, certificate, &mut buffer)?;
    Ok(lines(&buffer[..count]))
}

fn charges(arguments: &[String]) -> Result<Vec<u8>, Trouble> {
    let mut buffer = lent_buffer::<i64>(arguments)?;
    let input = read_input(None)?;
    let (case, certificate) = program::split(&input);
    let count = operations::charges(case, certificate, &mut buffer)?;
    Ok(lines(&buffer[..count]))
}

fn read_case(arguments: &[String]) -> Result<Vec<u8>, Trouble> {
    let mut buffer = lent_buffer::<i64>(arguments)?;
    let count = operations::read_case(&read_input(None)?, &mut buffer)?;
    Ok(lines(&buffer[..count]))
}

fn read_certificate(arguments: &[String]) -> Result<Vec<u8>, Trouble> {
    let mut buffer = lent_buffer::<i64>(arguments)?;
    let count = operations::read_certificate(&read_input(None)?, &mut buffer)?;
    Ok(lines(&buffer[..count]))
}

fn write_case(arguments: &[String]) -> Result<Vec<u8>, Trouble> {
    let mut buffer = lent_buffer::<u8>(arguments)?;
    let count = operations::write_case(&read_numbers()?, &mut buffer)?;
    buffer.truncate(count);
    Ok(buffer)
}

fn write_certificate(arguments: &[String]) -> Result<Vec<u8>, Trouble> {
    let mut buffer = lent_buffer::<u8>(arguments)?;
    let count = operations::write_certificate(&read_numbers()?, &mut buffer)?;
    buffer.truncate(count);
    Ok(buffer)
}

fn lines(numbers: &[i64]) -> Vec<u8> {
    numbers.iter().map(|number| format!("{number}\n")).collect::<String>().into_bytes()
}

fn no_arguments(arguments: &[String]) -> Result<(), Trouble> {
    match arguments.first() {
        None => Ok(()),
        Some(extra) => fault(format!("unexpected argument '{}'", extra.escape_debug())),
    }
}

/// The buffer an operation is lent: ample, or as long as `--buffer` says.
fn lent_buffer<T: Clone + Default>(arguments: &[String]) -> Result<Vec<T>, Trouble> {
    match arguments {
        [] => Ok(vec![T::default(); AMPLE]),
        [option, length] if option == "--buffer" => match length.parse::<usize>() {
            Ok(length) if length <= AMPLE => Ok(vec![T::default(); length]),
            _ => fault(format!("--buffer wants a number from 0 to {AMPLE}")),
        },
        [option] if option == "--buffer" => fault("--buffer wants a number"),
        [extra, ..] => fault(format!("unexpected argument '{}'", extra.escape_debug())),
    }
}

fn read_input(most: Option<u64>) -> Result<Vec<u8>, Trouble> {
    let mut input = Vec::new();
    let mut standard_input = std::io::stdin().take(most.unwrap_or(u64::MAX));
    match standard_input.read_to_end(&mut input) {
        Ok(_) => Ok(input),
        Err(error) => fault(format!("cannot read standard input: {error}")),
    }
}

/// Signed 64-bit numbers, a line each.
fn read_numbers() -> Result<Vec<i64>, Trouble> {
    let Ok(text) = String::from_utf8(read_input(None)?) else {
        return fault("standard input is not text");
    };
    let mut numbers = Vec::new();
    for (index, line) in text.lines().enumerate() {
        match line.trim().parse::<i64>() {
            Ok(number) => numbers.push(number),
            Err(_) => return fault(format!("line {} is not a signed 64-bit number", index + 1)),
        }
    }
    Ok(numbers)
}

/// What `generate` was asked for.
struct Order {
    seed: u64,
    count: usize,
    directory: String,
    manner: Manner,
    counts: Option<Counts>,
}

#[derive(Clone, Copy, PartialEq, Eq)]
enum Manner {
    Mixed,
    Accepted,
    Systematic,
}

fn generate(arguments: &[String]) -> Result<Vec<u8>, Trouble> {
    let order = generate_order(arguments)?;
    if let Err(error) = std::fs::create_dir_all(&order.directory) {
        return fault(format!("cannot make '{}': {error}", order.directory.escape_debug()));
    }
    let mut random = Random::new(order.seed);
    let mut written = 0;
    for _ in 0..order.count {
        for (case, certificate) in next_files(&mut random, &order) {
            written += 1;
            write_file(&order.directory, &format!("{written}.case"), &case)?;
            write_file(&order.directory, &format!("{written}.cert"), &certificate)?;
        }
    }
    Ok(Vec::new())
}

fn generate_order(arguments: &[String]) -> Result<Order, Trouble> {
    let [seed, count, directory, options @ ..] = arguments else {
        return fault("generate wants SEED COUNT DIR; see generate --help");
    };
    let mut order = Order {
        seed: seed_number(seed)?,
        count: count_number(count)?,
        directory: directory.clone(),
        manner: Manner::Mixed,
        counts: None,
    };
    let mut left = options;
    while let [option, rest @ ..] = left {
        left = rest;
        match option.as_str() {
            "--accepted" if order.manner == Manner::Mixed => order.manner = Manner::Accepted,
            "--systematic" if order.manner == Manner::Mixed => order.manner = Manner::Systematic,
            "--size" => {
                let [resources, zones, flowgates, rest @ ..] = rest else {
                    return fault("--size wants three numbers");
                };
                order.counts = Some(size(resources, zones, flowgates)?);
                left = rest;
            }
            _ => return fault(format!("unexpected argument '{}'", option.escape_debug())),
        }
    }
    Ok(order)
}

fn seed_number(text: &str) -> Result<u64, Trouble> {
    text.parse().or_else(|_| fault("SEED is not an unsigned 64-bit number"))
}

fn count_number(text: &str) -> Result<usize, Trouble> {
    match text.parse::<u32>() {
        Ok(count) => Ok(count as usize),
        Err(_) => fault("COUNT is not a number from 0 to 4294967295"),
    }
}

fn size(resources: &str, zones: &str, flowgates: &str) -> Result<Counts, Trouble> {
    let number = |text: &str| text.parse::<i64>().unwrap_or(-1);
    match Counts::within_range(number(resources), number(zones), number(flowgates)) {
        Some(counts) => Ok(counts),
        None => fault(format!(
            "--size wants 1 to {MOST_RESOURCES} resources, 1 to {MOST_ZONES} zones, \
             0 to {MOST_FLOWGATES} flowgates"
        )),
    }
}

/// The next pair of files, or in the systematic manner all that spring from it.
fn next_files(random: &mut Random, order: &Order) -> Vec<(Vec<u8>, Vec<u8>)> {
    let version = random.pick(&Version::ALL);
    let counts = match order.counts {
        Some(counts) => counts,
        None => random_counts(random),
    };
    let pair = varied_pair(random, version, counts);
    let sound = (pair.case_file(), pair.certificate_file());
    match order.manner {
        Manner::Accepted => vec![sound],
        Manner::Systematic => damage::every_damage(&pair)
            .into_iter()
            .map(|damaged| (damaged.case, damaged.certificate))
            .chain([sound])
            .collect(),
        Manner::Mixed if random.percent(75) => vec![sound],
        Manner::Mixed if random.percent(50) => vec![damage::random_harm(random, &pair)],
        Manner::Mixed => {
            let damaged = damage::some_damage(random, &pair);
            vec![damaged.map_or(sound, |damaged| (damaged.case, damaged.certificate))]
        }
    }
}

fn write_file(directory: &str, name: &str, bytes: &[u8]) -> Result<(), Trouble> {
    let path = Path::new(directory).join(name);
    match std::fs::write(&path, bytes) {
        Ok(()) => Ok(()),
        Err(error) => fault(format!("cannot write '{}': {error}", path.display())),
    }
}

/// What `vectors` was asked for.
struct VectorOrder {
    seed: u64,
    count: usize,
    corpus: Option<String>,
    operations: Vec<Operation>,
}

/// The records go out as they are made: there can be gigabytes of them.
fn vectors(arguments: &[String]) -> Result<Vec<u8>, Trouble> {
    let order = vector_order(arguments)?;
    let pairs = match &order.corpus {
        Some(directory) => corpus_pairs(directory)?,
        None => Vec::new(),
    };
    let mut out = BufWriter::with_capacity(1 << 16, std::io::stdout().lock());
    for files in &pairs {
        for operation in &order.operations {
            for call in corpus_calls(*operation, files) {
                write_record(&mut out, &call)?;
            }
        }
    }
    let mut source = Source::new(order.seed);
    for operation in order.operations.iter().cycle().take(order.count) {
        write_record(&mut out, &source.call(*operation))?;
    }
    match out.flush() {
        Ok(()) => Ok(Vec::new()),
        Err(error) => fault(format!("cannot write to standard output: {error}")),
    }
}

fn write_record(out: &mut impl Write, call: &Call) -> Result<(), Trouble> {
    let mut record = Vec::new();
    call.record(&mut record)?;
    match out.write_all(&record) {
        Ok(()) => Ok(()),
        Err(error) => fault(format!("cannot write to standard output: {error}")),
    }
}

fn vector_order(arguments: &[String]) -> Result<VectorOrder, Trouble> {
    let [seed, count, options @ ..] = arguments else {
        return fault("vectors wants SEED COUNT OPERATION..; see vectors --help");
    };
    let mut order = VectorOrder {
        seed: seed_number(seed)?,
        count: count_number(count)?,
        corpus: None,
        operations: Vec::new(),
    };
    let mut left = options;
    while let [option, rest @ ..] = left {
        left = rest;
        if option == "--corpus" && order.corpus.is_none() {
            let [directory, rest @ ..] = rest else {
                return fault("--corpus wants a directory");
            };
            order.corpus = Some(directory.clone());
            left = rest;
        } else {
            match Operation::from_name(option) {
                Some(operation) if !order.operations.contains(&operation) => {
                    order.operations.push(operation);
                }
                _ => return fault(format!("unexpected argument '{}'", option.escape_debug())),
            }
        }
    }
    if order.operations.is_empty() {
        return fault("vectors wants one operation at least; see vectors --help");
    }
    Ok(order)
}

/// The pairs of files in a directory, in the order of their names.
fn corpus_pairs(directory: &str) -> Result<Vec<Files>, Trouble> {
    let cannot_read = |path: &Path, error: std::io::Error| {
        Trouble::Fault(format!("cannot read '{}': {error}", path.display()))
    };
    let directory = Path::new(directory);
    let entries = std::fs::read_dir(directory).map_err(|error| cannot_read(directory, error))?;
    let mut paths = Vec::new();
    for entry in entries {
        let path = entry.map_err(|error| cannot_read(directory, error))?.path();
        if path.extension().is_some_and(|extension| extension == "case") {
            paths.push(path);
        }
    }
    if paths.is_empty() {
        return fault(format!("no file NAME.case in '{}'", directory.display()));
    }
    paths.sort();
    let read = |path: &Path| std::fs::read(path).map_err(|error| cannot_read(path, error));
    let pair = |path: &PathBuf| {
        Ok(Files { case: read(path)?, certificate: read(&path.with_extension("cert"))? })
    };
    paths.iter().map(pair).collect()
}
