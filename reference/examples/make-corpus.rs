//! Writes the part of the corpus that needs no solver, and the cases for
//! those that do. See `tests/corpus/make`.
//!
//! Usage: make-corpus DIR

use nostwier_reference::case::{flag, status, Curve, Flowgate, Kind, Step};
use nostwier_reference::damage::{every_damage_with_its_flowgates, Damaged, TOO_MANY_FLOWGATES};
use nostwier_reference::generate::{pair_of_counts, pair_of_scale, Pair, Scale};
use nostwier_reference::layout::{Counts, Version, MOST_FLOWGATES, MOST_RESOURCES, MOST_ZONES};
use nostwier_reference::program::whole_text;
use nostwier_reference::random::Random;
use nostwier_reference::worked;
use std::collections::BTreeMap;
use std::io;
use std::path::{Path, PathBuf};
use std::process::ExitCode;

fn main() -> ExitCode {
    let Some(directory) = std::env::args_os().nth(1) else {
        eprintln!("usage: make-corpus DIR");
        return ExitCode::from(2);
    };
    match make(Path::new(&directory)) {
        Ok(()) => ExitCode::SUCCESS,
        Err(error) => {
            eprintln!("make-corpus: {error}");
            ExitCode::from(1)
        }
    }
}

fn make(directory: &Path) -> io::Result<()> {
    let pairs = Corpus::new(directory.join("pairs"))?;
    let worked = [worked_pairs(), self_scheduled_pairs(), tripped_pairs()];
    for (name, pair) in worked.into_iter().flatten() {
        pairs.pair(&format!("worked-{name}"), &pair.case_file(), &pair.certificate_file())?;
    }
    for (name, pair) in generated_pairs() {
        pairs.pair(&format!("generated-{name}"), &pair.case_file(), &pair.certificate_file())?;
    }
    for (name, case, certificate) in refused_pairs().into_iter().chain(flowgate_pairs()) {
        pairs.pair(&name, &case, &certificate)?;
    }
    let operations = Corpus::new(directory.join("operations"))?;
    let mut list = String::new();
    for (name, arguments, input) in operation_inputs() {
        list.push_str(&format!("{name} {arguments}\n"));
        operations.write(&format!("{name}.input"), &input)?;
    }
    operations.write("list", list.as_bytes())?;
    for (name, case) in cases_to_solve() {
        for solver in ["glpsol", "clp"] {
            pairs.write(&format!("{solver}-{name}.case"), &case)?;
        }
    }
    Ok(())
}

/// One directory of the corpus.
struct Corpus {
    directory: PathBuf,
}

impl Corpus {
    fn new(directory: PathBuf) -> io::Result<Corpus> {
        std::fs::create_dir_all(&directory)?;
        Ok(Corpus { directory })
    }

    fn write(&self, name: &str, bytes: &[u8]) -> io::Result<()> {
        std::fs::write(self.directory.join(name), bytes)
    }

    fn pair(&self, name: &str, case: &[u8], certificate: &[u8]) -> io::Result<()> {
        self.write(&format!("{name}.case"), case)?;
        self.write(&format!("{name}.cert"), certificate)
    }
}

/// Where K's certificate has e, and the price of e <= HI.
const ENERGY: usize = 4;
const HIGH_ROW: usize = 12;

/// (a) to (l) of the paper.
fn worked_pairs() -> Vec<(&'static str, Pair)> {
    let changed = |change: &dyn Fn(&mut Pair)| {
        let mut pair = worked::pair();
        change(&mut pair);
        pair
    };
    let meets = |pair: &mut Pair, power: i64| {
        pair.case.demand = power;
        pair.certificate.amounts[ENERGY] = power;
    };
    let intermittent = |pair: &mut Pair, output: i64| {
        pair.case.resources[0].kind = Kind::Intermittent;
        pair.case.resources[0].status = status::COMMITTED;
        pair.case.resources[0].output = output;
    };
    let contingency = |pair: &mut Pair, amount: i64| {
        pair.case.contingency.multiplier = 700;
        pair.case.contingency.share = 1000;
        pair.case.contingency.requirement = 2_000_000;
        pair.case.resources[0].flags = flag::SPINNING;
        pair.case.resources[0].economic.maximum = 200_000;
        pair.certificate.amounts[ENERGY + 2] = amount;
    };
    vec![
        ("a", worked::pair()),
        ("b", changed(&|pair| pair.certificate.row_prices[0] = 2_500_000)),
        ("c", changed(&|pair| pair.certificate.row_prices[0] = 3_500_000)),
        (
            "d",
            changed(&|pair| {
                meets(pair, 65_000);
                pair.certificate.row_prices[0] = 3_500_000;
                pair.certificate.row_prices[HIGH_ROW] = 500_000;
            }),
        ),
        ("e", changed(&|pair| meets(pair, 65_001))),
        ("f", changed(&|pair| pair.certificate.amounts[ENERGY] = 59_999)),
        ("g", changed(&|pair| pair.case.resources[0].output = 499)),
        ("h-plus", changed(&|pair| pair.case.resources[0].output = 500)),
        ("h-minus", changed(&|pair| pair.case.resources[0].output = -500)),
        ("i-15", changed(&|pair| pair.case.resources[0].minutes_since_trip = 15)),
        ("i-16", changed(&|pair| pair.case.resources[0].minutes_since_trip = 16)),
        ("j-1", changed(&|pair| intermittent(pair, 1))),
        ("j-0", changed(&|pair| intermittent(pair, 0))),
        ("k-42857", changed(&|pair| contingency(pair, 42_857))),
        ("k-42858", changed(&|pair| contingency(pair, 42_858))),
        (
            "l",
            changed(&|pair| {
                pair.case.counts.flowgates = 1;
                pair.case.flowgates = vec![Flowgate { limit: 0, factors: vec![-60] }];
                pair.certificate.counts.flowgates = 1;
                pair.certificate.row_prices.insert(9, 200);
            }),
        ),
    ]
}

/// K with a self-schedule above HI, above MAX, in reach of both, and below the
/// ramp's floor of 35,000 (request 6): e at LO, and one kW below it.
fn self_scheduled_pairs() -> Vec<(&'static str, Pair)> {
    [
        ("self-schedule-to-hi", 100_000, 80_000, 65_000),
        ("self-schedule-below-hi", 100_000, 80_000, 64_999),
        ("self-schedule-to-max", 60_000, 80_000, 60_000),
        ("self-schedule-below-max", 60_000, 80_000, 59_999),
        ("self-schedule-in-reach", 100_000, 55_000, 55_000),
        ("self-schedule-not-met", 100_000, 55_000, 54_999),
        ("self-schedule-to-floor", 100_000, 30_000, 35_000),
        ("self-schedule-below-floor", 100_000, 30_000, 34_999),
    ]
    .into_iter()
    .map(|(name, maximum, self_schedule, energy)| {
        let mut pair = worked::pair();
        pair.case.demand = energy;
        pair.case.resources[0].economic.maximum = maximum;
        pair.case.resources[0].self_schedule = self_schedule;
        pair.case.resources[0].flags = flag::SELF_SCHEDULED;
        pair.certificate.amounts[ENERGY] = energy;
        pair.certificate.row_prices[0] = 3_500_000;
        pair.certificate.row_prices[HIGH_ROW] = 500_000;
        (name, pair)
    })
    .collect()
}

/// K with a trip of 15 minutes ago (02, request 2). With demand 0, an open
/// breaker and an offer it may give no off-line reserve, which it may at 16; with
/// a closed breaker and output it has no energy to sell, whatever row 1's price.
/// An intermittent resource is on-line as without a trip.
fn tripped_pairs() -> Vec<(&'static str, Pair)> {
    let tripped = |minutes: i64, demand: i64, change: &dyn Fn(&mut Pair)| {
        let mut pair = worked::pair();
        pair.case.demand = demand;
        pair.case.resources[0].minutes_since_trip = minutes;
        pair.certificate.amounts[ENERGY] = demand;
        change(&mut pair);
        pair
    };
    let dear_energy = |pair: &mut Pair| pair.certificate.row_prices[0] = 3_500_000;
    let intermittent = |pair: &mut Pair| {
        pair.case.resources[0].kind = Kind::Intermittent;
        pair.case.resources[0].status = status::COMMITTED;
    };
    vec![
        ("tripped-short-term", tripped(15, 0, &offline_short_term)),
        ("tripped-short-term-at-16", tripped(16, 0, &offline_short_term)),
        ("tripped-contingency", tripped(15, 0, &offline_contingency)),
        ("tripped-no-energy", tripped(15, 0, &dear_energy)),
        ("tripped-intermittent", tripped(15, 60_000, &intermittent)),
    ]
}

/// 10,000 kW of off-line short-term reserve at the price of its offer, for a
/// curve that is worth more.
fn offline_short_term(pair: &mut Pair) {
    pair.case.curves[Curve::ShortTerm as usize][0] = Step { width: 10_000, price: 500 };
    let resource = &mut pair.case.resources[0];
    resource.breaker_closed = false;
    resource.flags = flag::OFFLINE_SHORT_TERM;
    resource.offline_short_term = 20_000;
    resource.offline_short_term_price = 300;
    pair.certificate.amounts[Curve::ShortTerm as usize] = 10_000;
    pair.certificate.amounts[ENERGY + 4] = 10_000;
    pair.certificate.row_prices[4] = 300_000;
}

/// 10,000 kW of contingency reserve, off-line.
fn offline_contingency(pair: &mut Pair) {
    pair.case.contingency.share = 1000;
    pair.case.contingency.requirement = 20_000;
    let resource = &mut pair.case.resources[0];
    resource.breaker_closed = false;
    resource.flags = flag::OFFLINE_SUPPLEMENTAL;
    resource.offline_response = 20_000;
    pair.certificate.amounts[ENERGY + 2] = 10_000;
}

fn counts(resources: usize, zones: usize, flowgates: usize) -> Counts {
    Counts { resources, zones, flowgates }
}

/// Accepted pairs from the smallest to the largest.
fn generated_pairs() -> Vec<(String, Pair)> {
    let sizes = [
        (1, 1, 0),
        (1, MOST_ZONES, MOST_FLOWGATES),
        (3, 2, 1),
        (8, 3, 4),
        (20, 8, 8),
        (MOST_RESOURCES, MOST_ZONES, MOST_FLOWGATES),
    ];
    sizes
        .into_iter()
        .enumerate()
        .map(|(index, (resources, zones, flowgates))| {
            let mut random = Random::new(100 + index as u64);
            let pair =
                pair_of_counts(&mut random, Version::ONE, counts(resources, zones, flowgates));
            (format!("{resources}-{zones}-{flowgates}"), pair)
        })
        .collect()
}

/// Cases that solvers are given, of common size.
fn cases_to_solve() -> Vec<(String, Vec<u8>)> {
    // Seeds whose whole-number search ends soon, so that no clock has a say.
    let sizes = [
        (200, 2, 1, 0),
        (201, 6, 2, 2),
        (202, 15, 3, 0),
        (203, 30, 4, 6),
        (211, MOST_RESOURCES, MOST_ZONES, MOST_FLOWGATES),
    ];
    sizes
        .into_iter()
        .map(|(seed, resources, zones, flowgates)| {
            let mut random = Random::new(seed);
            let scale = Scale { edges: 5, ..Scale::COMMON };
            let pair = pair_of_scale(
                &mut random,
                Version::ONE,
                counts(resources, zones, flowgates),
                scale,
            );
            (format!("{resources}-{zones}-{flowgates}"), pair.case_file())
        })
        .collect()
}

/// How many pairs stand for a refusal number; 13 and 14 at several places.
fn how_many(number: u32) -> usize {
    match number {
        13 => 5,
        14 => 8,
        5 | 12 => 3,
        1 | 3 | 6 | 8 => 2,
        _ => 1,
    }
}

/// Damaged pairs that the program refuses as it must, split as it splits them.
/// Files with too many flowgates have pairs of their own.
fn refused_pairs() -> Vec<(String, Vec<u8>, Vec<u8>)> {
    let pair = pair_of_counts(&mut Random::new(300), Version::ONE, counts(2, 2, 2));
    let mut by_number: BTreeMap<u32, Vec<Damaged>> = BTreeMap::new();
    for damaged in every_damage_with_its_flowgates(&pair) {
        let printed = whole_text(&[&damaged.case[..], &damaged.certificate].concat());
        if printed == format!("{}\n", damaged.refusal) {
            by_number.entry(damaged.refusal.number()).or_default().push(damaged);
        }
    }
    let mut list = Vec::new();
    for (number, damages) in by_number {
        for (index, damaged) in spread(damages, how_many(number)).into_iter().enumerate() {
            let name = match damaged.refusal.place() {
                Some(place) => format!("refused-{number:02}-{place:02}"),
                None => format!("refused-{number:02}-{}", index + 1),
            };
            list.push((name, damaged.case, damaged.certificate));
        }
    }
    list.push(("refused-01-empty".to_string(), Vec::new(), Vec::new()));
    list.extend(too_long());
    list
}

/// So many of a list, from its first to its last.
fn spread(list: Vec<Damaged>, most: usize) -> Vec<Damaged> {
    let length = list.len();
    let chosen: Vec<usize> = match most.min(length) {
        0 => Vec::new(),
        1 => vec![0],
        many => (0..many).map(|index| index * (length - 1) / (many - 1)).collect(),
    };
    let is_chosen = |index: &usize| chosen.contains(index);
    list.into_iter().enumerate().filter(|(index, _)| is_chosen(index)).map(|(_, it)| it).collect()
}

/// Input of 32,768 bytes, which is not too long, and of one more.
fn too_long() -> Vec<(String, Vec<u8>, Vec<u8>)> {
    let pair = worked::pair();
    let case = pair.case_file();
    let mut certificate = pair.certificate_file();
    certificate.resize(32_768 - case.len(), 0);
    let longest = ("refused-08-longest".to_string(), case.clone(), certificate.clone());
    certificate.push(0);
    vec![longest, ("refused-17".to_string(), case, certificate)]
}

/// As many flowgates as a case may have, and too many: the next number, the
/// largest before request 9 and one more. The largest that a byte holds is left
/// out, to keep files small.
const FLOWGATES: [usize; 4] =
    [MOST_FLOWGATES, TOO_MANY_FLOWGATES[0], TOO_MANY_FLOWGATES[1], TOO_MANY_FLOWGATES[2]];

/// An accepted pair of as many flowgates as a case may have, laid out with so
/// many: nothing but their number is wrong with it.
fn pair_of_flowgates(flowgates: usize) -> Pair {
    let pair = pair_of_counts(&mut Random::new(516), Version::ONE, counts(2, 1, MOST_FLOWGATES));
    pair.with_flowgates(flowgates)
}

/// Both files with 12 flowgates, which are accepted, and with more: 3. Then a
/// certificate with more beside the valid case: 10.
fn flowgate_pairs() -> Vec<(String, Vec<u8>, Vec<u8>)> {
    let mut list = Vec::new();
    let valid = pair_of_flowgates(MOST_FLOWGATES);
    for flowgates in FLOWGATES {
        let pair = pair_of_flowgates(flowgates);
        let certificate = pair.certificate_file();
        list.push((format!("flowgates-{flowgates}"), pair.case_file(), certificate.clone()));
        if flowgates > MOST_FLOWGATES {
            let name = format!("flowgates-certificate-{flowgates}");
            list.push((name, valid.case_file(), certificate));
        }
    }
    list
}

/// An input of another subcommand: name, arguments and standard input.
type OperationInput = (String, &'static str, Vec<u8>);

fn operation_inputs() -> Vec<OperationInput> {
    let mut list = inputs_of_a_common_pair();
    for flowgates in FLOWGATES {
        list.extend(inputs_of_flowgates(flowgates));
    }
    list
}

fn inputs_of_a_common_pair() -> Vec<OperationInput> {
    let pair = pair_of_counts(&mut Random::new(400), Version::ONE, counts(3, 2, 2));
    let joined = [pair.case_file(), pair.certificate_file()].concat();
    let (case_lines, certificate_lines) = (case_lines(&pair), certificate_lines(&pair));
    [
        ("case", "case", pair.case_file()),
        ("prices", "prices", joined.clone()),
        ("charges", "charges", joined.clone()),
        ("charges-15", "charges --buffer 87", joined.clone()),
        ("read-case", "read-case", pair.case_file()),
        ("read-certificate", "read-certificate", pair.certificate_file()),
        ("write-case", "write-case", case_lines.clone()),
        ("write-case-16", "write-case", [&case_lines[..], b"0\n"].concat()),
        ("write-certificate", "write-certificate", certificate_lines),
        ("write-certificate-03", "write-certificate", b"1\n9\n0\n".to_vec()),
    ]
    .map(|(name, arguments, input)| (name.to_string(), arguments, input))
    .into()
}

/// Every subcommand with files of so many flowgates; if that is too many, prices
/// and charges with such a certificate beside the valid case as well.
fn inputs_of_flowgates(flowgates: usize) -> Vec<OperationInput> {
    let pair = pair_of_flowgates(flowgates);
    let (case, certificate) = (pair.case_file(), pair.certificate_file());
    let joined = [&case[..], &certificate].concat();
    let mut list = vec![
        (format!("case-flowgates-{flowgates}"), "case", case.clone()),
        (format!("prices-flowgates-{flowgates}"), "prices", joined.clone()),
        (format!("charges-flowgates-{flowgates}"), "charges", joined),
        (format!("read-case-flowgates-{flowgates}"), "read-case", case),
        (format!("read-certificate-flowgates-{flowgates}"), "read-certificate", certificate),
        (format!("write-case-flowgates-{flowgates}"), "write-case", case_lines(&pair)),
        (
            format!("write-certificate-flowgates-{flowgates}"),
            "write-certificate",
            certificate_lines(&pair),
        ),
    ];
    if flowgates > MOST_FLOWGATES {
        let valid = pair_of_flowgates(MOST_FLOWGATES).case_file();
        let beside = [valid, pair.certificate_file()].concat();
        for subcommand in ["prices", "charges"] {
            let name = format!("{subcommand}-flowgates-certificate-{flowgates}");
            list.push((name, subcommand, beside.clone()));
        }
    }
    list
}

/// The three counts of a pair and the numbers after them, a line each.
fn counted_lines(counts: Counts, numbers: &[i64]) -> Vec<u8> {
    let counts = [counts.resources, counts.zones, counts.flowgates].map(|count| count as i64);
    lines(&[&counts[..], numbers].concat())
}

fn case_lines(pair: &Pair) -> Vec<u8> {
    counted_lines(pair.case.counts, &pair.case.numbers())
}

fn certificate_lines(pair: &Pair) -> Vec<u8> {
    counted_lines(pair.certificate.counts, &pair.certificate.numbers())
}

fn lines(numbers: &[i64]) -> Vec<u8> {
    numbers.iter().map(|number| format!("{number}\n")).collect::<String>().into_bytes()
}
