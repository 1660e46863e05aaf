//! The vectors for a host, taken apart record by record.

use nostwier_reference::layout::{
    self, Counts, FieldsOf, Version, MOST_FLOWGATES, MOST_RESOURCES, MOST_ZONES,
};
use nostwier_reference::{
    charges, check_case, check_certificate, prices, read_case, read_certificate, worked,
    write_case, write_certificate, Failure, Totals,
};
use std::collections::{BTreeMap, BTreeSet};
use std::path::PathBuf;
use std::process::{Command, Output};

const OPERATIONS: [&str; 8] = [
    "case",
    "certificate",
    "prices",
    "charges",
    "read-case",
    "read-certificate",
    "write-case",
    "write-certificate",
];

fn run(arguments: &[&str]) -> Output {
    Command::new(env!("CARGO_BIN_EXE_nostwier-reference"))
        .arg("vectors")
        .args(arguments)
        .output()
        .expect("the program starts")
}

fn good(arguments: &[&str]) -> Vec<u8> {
    let output = run(arguments);
    assert_eq!(String::from_utf8_lossy(&output.stderr), "", "{arguments:?}");
    assert!(output.status.success(), "{arguments:?}");
    output.stdout
}

fn fault(arguments: &[&str]) -> String {
    let output = run(arguments);
    assert_eq!(output.status.code(), Some(2), "{arguments:?}");
    assert!(output.stdout.is_empty(), "{arguments:?}");
    let line = String::from_utf8(output.stderr).expect("text");
    let told = line.strip_prefix("nostwier-reference: ").expect("its own name");
    told.strip_suffix('\n').expect("a whole line").to_string()
}

/// A directory of its own for one test, empty.
fn scratch(name: &str) -> PathBuf {
    let path = PathBuf::from(env!("CARGO_TARGET_TMPDIR")).join(name);
    let _ = std::fs::remove_dir_all(&path);
    std::fs::create_dir_all(&path).expect("made");
    path
}

/// A record as a host reads it.
struct Record {
    operation: u8,
    /// The first input; of writers, no bytes but numbers.
    bytes: Vec<u8>,
    numbers: Vec<i64>,
    certificate: Vec<u8>,
    room: usize,
    refusal: u32,
    place: u32,
    totals: [i64; 3],
    /// What is written; of writers, no numbers but bytes.
    written: Vec<i64>,
    written_bytes: Vec<u8>,
}

struct Stream<'a>(&'a [u8]);

impl Stream<'_> {
    fn bytes(&mut self, count: usize) -> Vec<u8> {
        let (taken, rest) = self.0.split_at(count);
        self.0 = rest;
        taken.to_vec()
    }

    fn u32(&mut self) -> u32 {
        u32::from_be_bytes(self.bytes(4).try_into().expect("four"))
    }

    fn i64(&mut self) -> i64 {
        i64::from_be_bytes(self.bytes(8).try_into().expect("eight"))
    }

    fn numbers(&mut self, count: usize) -> Vec<i64> {
        (0..count).map(|_| self.i64()).collect()
    }

    fn record(&mut self) -> Record {
        let operation = self.bytes(1)[0];
        let writes_bytes = operation >= 7;
        let [first, second, room] = [self.u32() as usize, self.u32() as usize, self.u32() as usize];
        let bytes = if writes_bytes { Vec::new() } else { self.bytes(first) };
        let numbers = if writes_bytes { self.numbers(first) } else { Vec::new() };
        let certificate = self.bytes(second);
        let [refusal, place] = [self.u32(), self.u32()];
        let totals = [self.i64(), self.i64(), self.i64()];
        let count = self.u32() as usize;
        let written = if writes_bytes { Vec::new() } else { self.numbers(count) };
        let written_bytes = if writes_bytes { self.bytes(count) } else { Vec::new() };
        Record {
            operation,
            bytes,
            numbers,
            certificate,
            room,
            refusal,
            place,
            totals,
            written,
            written_bytes,
        }
    }
}

fn records(arguments: &[&str]) -> Vec<Record> {
    let bytes = good(arguments);
    let mut stream = Stream(&bytes);
    let mut list = Vec::new();
    while !stream.0.is_empty() {
        list.push(stream.record());
    }
    list
}

/// COUNT records of one operation.
fn of_operation(operation: &str, count: &str) -> Vec<Record> {
    let list = records(&["7", count, operation]);
    assert_eq!(list.len().to_string(), count);
    list
}

/// K, as the only pair of a corpus.
fn corpus_of_k(name: &str) -> String {
    let directory = scratch(name);
    std::fs::write(directory.join("k.case"), worked::pair().case_file()).expect("written");
    std::fs::write(directory.join("k.cert"), worked::pair().certificate_file()).expect("written");
    std::fs::write(directory.join("k.expected"), b"not a case").expect("written");
    directory.to_str().expect("text").to_string()
}

fn words(numbers: &[u32]) -> Vec<u8> {
    numbers.iter().flat_map(|number| number.to_be_bytes()).collect()
}

fn longs(numbers: &[i64]) -> Vec<u8> {
    numbers.iter().flat_map(|number| number.to_be_bytes()).collect()
}

#[test]
fn the_records_of_k_byte_for_byte() {
    let corpus = corpus_of_k("vectors-k");
    let case = worked::pair().case_file();
    let certificate = worked::pair().certificate_file();
    assert_eq!((case.len(), certificate.len()), (340, 100));
    let nothing = [0; 24 + 4];

    let expected = [&[1][..], &words(&[340, 0, 0]), &case, &words(&[0, 0]), &nothing].concat();
    assert_eq!(good(&["1", "0", "--corpus", &corpus, "case"]), expected);

    let totals = longs(&[140_000_000_000, 140_000_000_000, 0]);
    let expected = [
        &[2][..],
        &words(&[340, 100, 0]),
        &case,
        &certificate,
        &words(&[0, 0]),
        &totals,
        &words(&[0]),
    ]
    .concat();
    assert_eq!(good(&["1", "0", "--corpus", &corpus, "certificate"]), expected);

    // A buffer too short by one, one of the right length, and a longer one.
    let lent = |room| [&[3][..], &words(&[340, 100, room]), &case, &certificate].concat();
    let priced =
        [&words(&[0, 0])[..], &longs(&[0, 0, 0]), &words(&[5]), &longs(&[3_000_000, 0, 0, 0, 0])]
            .concat();
    let expected =
        [lent(4), words(&[15, 0]), nothing.to_vec(), lent(5), priced.clone(), lent(12), priced]
            .concat();
    assert_eq!(good(&["1", "0", "prices", "--corpus", &corpus]), expected);
}

#[test]
fn the_numbers_of_k_go_to_and_fro() {
    let corpus = corpus_of_k("vectors-k-numbers");
    let read = records(&["1", "0", "--corpus", &corpus, "read-case", "read-certificate"]);
    let written = records(&["1", "0", "--corpus", &corpus, "write-case", "write-certificate"]);
    assert_eq!((read.len(), written.len()), (6, 6));
    assert_eq!([read[1].room, read[4].room], [95, 26]);
    assert_eq!(read[1].written[..5], [1, 1, 0, 60_000, 1000]);
    assert_eq!(read[4].written[..8], [1, 1, 0, 0, 0, 0, 0, 3_000_000]);
    for (read, written) in read.iter().zip(&written) {
        assert_eq!(written.operation, read.operation + 2);
        assert_eq!(written.refusal, read.refusal);
        assert_eq!(
            written.written_bytes.len(),
            if read.refusal == 0 { read.bytes.len() } else { 0 }
        );
    }
    assert_eq!(written[1].numbers, read[1].written);
    assert_eq!(written[1].written_bytes, read[1].bytes);
    assert_eq!(written[4].numbers, read[4].written);
    assert_eq!(written[5].written_bytes, read[5].bytes);
}

#[test]
fn a_seed_gives_the_same_records_and_another_seed_others() {
    let all = |seed, count| good(&[&[seed, count], &OPERATIONS[..]].concat());
    let one = all("3", "400");
    assert_eq!(one, all("3", "400"));
    assert_ne!(one, all("4", "400"));
    assert_eq!(one[..10_000], all("3", "200")[..10_000]);
}

#[test]
fn operations_take_turns_after_the_corpus() {
    let corpus = corpus_of_k("vectors-turns");
    let list = records(&["1", "7", "charges", "write-case", "--corpus", &corpus, "case"]);
    let operations: Vec<u8> = list.iter().map(|record| record.operation).collect();
    assert_eq!(operations, [4, 4, 4, 7, 7, 7, 1, 4, 7, 1, 4, 7, 1, 4]);
}

/// Each answer once more, from the operations, with a buffer that is not empty.
#[test]
fn the_answers_are_those_of_the_operations() {
    let all = [&["11", "6000"], &OPERATIONS[..]].concat();
    for (index, record) in records(&all).iter().enumerate() {
        let Record { bytes, numbers, certificate, .. } = record;
        let mut out = vec![-7; record.room];
        let mut out_bytes = vec![77; record.room];
        let outcome = match record.operation {
            1 => check_case(bytes).map(|_| 0).map_err(Failure::from),
            2 => check_certificate(bytes, certificate).map(|totals| {
                let Totals { cost, bound, gap } = totals;
                assert_eq!(record.totals, [cost, bound, gap]);
                0
            }),
            3 => prices(bytes, certificate, &mut out),
            4 => charges(bytes, certificate, &mut out),
            5 => read_case(bytes, &mut out).map_err(Failure::from),
            6 => read_certificate(bytes, &mut out).map_err(Failure::from),
            7 => write_case(numbers, &mut out_bytes).map_err(Failure::from),
            8 => write_certificate(numbers, &mut out_bytes).map_err(Failure::from),
            other => panic!("operation {other}"),
        };
        match outcome {
            Ok(count) if record.operation >= 7 => {
                assert_eq!((record.refusal, record.place), (0, 0), "{index}");
                assert_eq!(record.written_bytes, out_bytes[..count], "{index}");
            }
            Ok(count) => {
                assert_eq!((record.refusal, record.place), (0, 0), "{index}");
                assert_eq!(record.written, out[..count], "{index}");
            }
            Err(Failure::Refused(refusal)) => {
                assert_eq!(record.refusal, refusal.number(), "{index}");
                assert_eq!(record.place as usize, refusal.place().unwrap_or(0), "{index}");
                assert_eq!(record.totals, [0; 3], "{index}");
                assert!(record.written.is_empty() && record.written_bytes.is_empty(), "{index}");
            }
            Err(failure) => panic!("{failure}"),
        }
    }
}

#[test]
fn every_refusal_of_every_operation_is_met() {
    let up_to = |last: u32, further: &[u32]| (0..=last).chain(further.iter().copied()).collect();
    let expected: [Vec<u32>; 8] = [
        up_to(7, &[]),
        up_to(14, &[]),
        up_to(15, &[]),
        up_to(15, &[]),
        up_to(7, &[15]),
        vec![0, 3, 8, 9, 11, 15],
        vec![0, 3, 5, 6, 7, 15, 16],
        vec![0, 3, 15, 16],
    ];
    for (operation, expected) in OPERATIONS.into_iter().zip(expected) {
        let met: BTreeSet<u32> =
            of_operation(operation, "4000").iter().map(|record| record.refusal).collect();
        assert_eq!(met.into_iter().collect::<Vec<_>>(), expected, "{operation}");
    }
}

/// The end of its range that a number lies past, and the field's name, if it is
/// the only one of the file.
fn only_field_past_an_end(file: &[u8], fields: FieldsOf) -> Option<(&'static str, bool)> {
    let fields = fields(layout::announced_version(file)?, layout::announced_counts(file)?);
    let numbers = layout::read_fields(file, &fields);
    let mut past = fields.iter().zip(&numbers).filter(|(field, number)| !field.allows(**number));
    let (field, number) = past.next()?;
    past.next().is_none().then_some((field.name, *number > field.most))
}

/// Every field past each end that its bytes can pass.
fn every_end(fields: FieldsOf) -> BTreeSet<(&'static str, bool)> {
    let mut ends = BTreeSet::new();
    for field in fields(Version::ONE, Counts { resources: 1, zones: 1, flowgates: 1 }) {
        for (number, upper) in [(field.least - 1, false), (field.most + 1, true)] {
            if field.width.holds(number) {
                ends.insert((field.name, upper));
            }
        }
    }
    ends
}

#[test]
fn every_field_is_met_past_each_end() {
    let met: BTreeSet<_> = of_operation("case", "12000")
        .iter()
        .filter(|record| record.refusal == 5)
        .filter_map(|record| only_field_past_an_end(&record.bytes, layout::case_fields))
        .collect();
    assert_eq!(met, every_end(layout::case_fields));
    let met: BTreeSet<_> = of_operation("certificate", "20000")
        .iter()
        .filter(|record| record.refusal == 12)
        .filter_map(|record| {
            only_field_past_an_end(&record.certificate, layout::certificate_fields)
        })
        .collect();
    assert_eq!(met, every_end(layout::certificate_fields));
}

#[test]
fn buffers_are_of_every_kind() {
    for operation in &OPERATIONS[2..] {
        let list = of_operation(operation, "2000");
        let filled = |record: &Record| record.written.len() + record.written_bytes.len();
        let good = || list.iter().filter(|record| record.refusal == 0);
        assert!(good().any(|record| record.room == filled(record)), "{operation}: exact");
        assert!(good().any(|record| record.room > filled(record)), "{operation}: longer");
        let short = || list.iter().filter(|record| record.refusal == 15);
        assert!(short().any(|record| record.room == 0), "{operation}: empty");
        // One more item of room would do.
        let one_short = |record: &&Record| {
            let enough = record.room + 1;
            match *operation {
                "prices" => {
                    prices(&record.bytes, &record.certificate, &mut vec![0; enough]).is_ok()
                }
                "charges" => {
                    charges(&record.bytes, &record.certificate, &mut vec![0; enough]).is_ok()
                }
                "read-case" => read_case(&record.bytes, &mut vec![0; enough]).is_ok(),
                "read-certificate" => read_certificate(&record.bytes, &mut vec![0; enough]).is_ok(),
                "write-case" => write_case(&record.numbers, &mut vec![0; enough]).is_ok(),
                _ => write_certificate(&record.numbers, &mut vec![0; enough]).is_ok(),
            }
        };
        assert!(short().any(|record| one_short(&record)), "{operation}: one short");
    }
}

#[test]
fn a_host_has_room_for_every_input_and_buffer() {
    const ROOM: usize = 65_536;
    for operation in OPERATIONS {
        for record in of_operation(operation, "4000") {
            let Record { bytes, numbers, certificate, .. } = &record;
            let lent = record.room * if record.operation < 7 { 8 } else { 1 };
            let longest = [bytes.len(), 8 * numbers.len(), certificate.len(), lent];
            assert!(longest.iter().all(|length| *length <= ROOM), "{operation}: {longest:?}");
        }
    }
}

#[test]
fn lists_for_writers_are_damaged_in_every_way() {
    for (operation, fields) in [
        ("write-case", layout::case_fields as FieldsOf),
        ("write-certificate", layout::certificate_fields),
    ] {
        let mut met = BTreeSet::new();
        for record in of_operation(operation, "6000") {
            let counts = match record.numbers[..] {
                [resources, zones, flowgates, ..] => {
                    Counts::within_range(resources, zones, flowgates)
                }
                _ => None,
            };
            let Some(fields) = counts.map(|counts| fields(Version::ONE, counts)) else {
                met.insert(if record.numbers.len() < 3 { "under three" } else { "counts" });
                continue;
            };
            let rest = &record.numbers[3..];
            match rest.len() as i64 - fields.len() as i64 {
                -1 => drop(met.insert("one short")),
                1 => drop(met.insert("one long")),
                0 => {}
                _ => continue,
            }
            for (field, number) in fields.iter().zip(rest) {
                let (lowest, highest) = field.width.ends();
                for (what, there) in [
                    ("the least", field.least),
                    ("the most", field.most),
                    ("past the least", field.least - 1),
                    ("past the most", field.most + 1),
                    ("the lowest that fits", lowest),
                    ("the highest that fits", highest),
                    ("past the lowest", lowest - 1),
                    ("past the highest", highest + 1),
                    ("the lowest of 64 bits", i64::MIN),
                    ("the highest of 64 bits", i64::MAX),
                ] {
                    if *number == there {
                        met.insert(what);
                    }
                }
            }
        }
        assert_eq!(met.len(), 14, "{operation}: {met:?}");
    }
}

#[test]
fn cases_are_small_and_large() {
    let accepted: BTreeSet<Vec<u8>> = of_operation("certificate", "3000")
        .into_iter()
        .filter(|record| record.refusal == 0)
        .map(|record| record.bytes[5..8].to_vec())
        .collect();
    let largest = [MOST_RESOURCES, MOST_ZONES, MOST_FLOWGATES].map(|most| most as u8);
    assert!(accepted.contains(&vec![1, 1, 0]) && accepted.contains(&largest[..]));
    assert!(accepted.len() >= 30, "{} sizes", accepted.len());
}

/// A list for a writer with 12 flowgates in place of its own, if it is as long
/// as its counts say.
fn list_of_twelve(numbers: &[i64], fields: FieldsOf) -> Option<Vec<i64>> {
    let [resources, zones, flowgates, rest @ ..] = numbers else { return None };
    let own = Counts::of_any_flowgates(*resources, *zones, *flowgates)?;
    let [own, twelve] =
        [own, Counts { flowgates: 12, ..own }].map(|counts| fields(Version::ONE, counts));
    let rest = (rest.len() == own.len()).then(|| layout::with_flowgates(&own, rest, &twelve))?;
    Some([&[*resources, *zones, 12], &rest[..]].concat())
}

/// A file with 12 flowgates in place of its own, if its size is what its counts
/// need.
fn file_of_twelve(file: &[u8], fields: FieldsOf) -> Option<Vec<u8>> {
    let [resources, zones, flowgates] = layout::announced_numbers(file)?;
    let own = Counts::of_any_flowgates(resources, zones, flowgates)?;
    let twelve = Counts { flowgates: 12, ..own };
    let [own, wanted] = [own, twelve].map(|counts| fields(Version::ONE, counts));
    (file.len() == layout::file_size(&own)).then(|| {
        let numbers = layout::with_flowgates(&own, &layout::read_fields(file, &own), &wanted);
        layout::write_fields(Version::ONE, twelve, &numbers, &wanted)
    })
}

/// The refusal of a call once its files are laid out with 12 flowgates, 0 for
/// none; None if they are not whole. Its buffer is as long as can be needed.
fn refusal_with_twelve(record: &Record) -> Option<u32> {
    let case = || file_of_twelve(&record.bytes, layout::case_fields);
    let certificate = || file_of_twelve(&record.certificate, layout::certificate_fields);
    let alone = || file_of_twelve(&record.bytes, layout::certificate_fields);
    let (mut out, mut bytes) = (vec![0; 20_000], vec![0; 50_000]);
    let outcome = match record.operation {
        1 => check_case(&case()?).map(|_| 0).map_err(Failure::from),
        2 => check_certificate(&case()?, &certificate()?).map(|_| 0),
        3 => prices(&case()?, &certificate()?, &mut out),
        4 => charges(&case()?, &certificate()?, &mut out),
        5 => read_case(&case()?, &mut out).map_err(Failure::from),
        6 => read_certificate(&alone()?, &mut out).map_err(Failure::from),
        7 => write_case(&list_of_twelve(&record.numbers, layout::case_fields)?, &mut bytes)
            .map_err(Failure::from),
        _ => write_certificate(
            &list_of_twelve(&record.numbers, layout::certificate_fields)?,
            &mut bytes,
        )
        .map_err(Failure::from),
    };
    match outcome {
        Ok(_) => Some(0),
        Err(Failure::Refused(refusal)) => Some(refusal.number()),
        Err(failure) => panic!("{failure}"),
    }
}

/// The flowgates that the first input of a call announces.
fn first_flowgates(record: &Record) -> Option<i64> {
    match record.operation {
        7 | 8 => record.numbers.get(2).copied(),
        _ => record.bytes.get(7).copied().map(i64::from),
    }
}

/// Files that are right but for too many flowgates, and right ones of 12, so that
/// a program that takes 13 or 16 of them, or refuses 12, is found by every
/// operation (request 9).
#[test]
fn whole_files_of_twelve_flowgates_and_of_more_meet_every_operation() {
    for operation in OPERATIONS {
        let mut met: BTreeMap<i64, usize> = BTreeMap::new();
        for record in of_operation(operation, "4000") {
            let Some(flowgates) = first_flowgates(&record) else { continue };
            let expected: &[u32] = if flowgates > 12 { &[3] } else { &[0, 15] };
            let is_looked_for = [12, 13, 16, 17, 255].contains(&flowgates);
            if is_looked_for
                && expected.contains(&record.refusal)
                && refusal_with_twelve(&record) == Some(0)
            {
                *met.entry(flowgates).or_default() += 1;
            }
        }
        for (flowgates, least) in [(12, 40), (13, 20), (16, 20), (17, 4), (255, 4)] {
            let times = met.get(&flowgates).copied().unwrap_or(0);
            assert!(times >= least, "{operation}: {flowgates} flowgates, {met:?}");
        }
    }
}

/// 12, 13, 16, 17 and 255 announced by a file or list that is laid out for
/// another number.
#[test]
fn counts_of_flowgates_are_harmed_at_every_telling_number() {
    for operation in OPERATIONS {
        let mut met = BTreeSet::new();
        for record in of_operation(operation, "12000") {
            if refusal_with_twelve(&record).is_none() {
                met.extend(first_flowgates(&record));
            }
        }
        for flowgates in [12, 13, 16, 17, 255] {
            assert!(met.contains(&flowgates), "{operation}: {flowgates} flowgates");
        }
    }
}

/// A certificate of too many flowgates beside a valid case is refused by 10.
#[test]
fn whole_certificates_of_too_many_flowgates_meet_valid_cases() {
    for operation in &OPERATIONS[1..4] {
        let mut met = BTreeSet::new();
        for record in of_operation(operation, "8000") {
            let size = file_of_twelve(&record.certificate, layout::certificate_fields);
            if record.refusal == 10 && size.is_some() && check_case(&record.bytes).is_ok() {
                met.insert(record.certificate[7]);
            }
        }
        for flowgates in [13, 16, 17, 255] {
            assert!(met.contains(&flowgates), "{operation}: {flowgates} flowgates");
        }
    }
}

#[test]
fn a_corpus_file_of_too_many_flowgates_is_read_and_written_too() {
    for (flowgates, refusal) in [(12, 0), (13, 3), (16, 3), (17, 3)] {
        let directory = scratch(&format!("vectors-flowgates-{flowgates}"));
        let pair = worked::pair().with_flowgates(flowgates);
        std::fs::write(directory.join("k.case"), pair.case_file()).expect("written");
        std::fs::write(directory.join("k.cert"), pair.certificate_file()).expect("written");
        let path = directory.to_str().expect("text");
        for (operation, items) in [
            ("read-case", 95 + 2 * flowgates),
            ("read-certificate", 26 + flowgates),
            ("write-case", 340 + 6 * flowgates),
            ("write-certificate", 100 + 4 * flowgates),
        ] {
            let list = records(&["1", "0", "--corpus", path, operation]);
            let rooms: Vec<usize> = list.iter().map(|record| record.room).collect();
            assert_eq!(rooms, [items - 1, items, items + 7], "{operation}");
            let refusals: Vec<u32> = list.iter().map(|record| record.refusal).collect();
            let short = if refusal == 0 { 15 } else { refusal };
            assert_eq!(refusals, [short, refusal, refusal], "{operation}");
            assert_eq!(first_flowgates(&list[0]), Some(flowgates as i64), "{operation}");
        }
    }
}

#[test]
fn vectors_tell_what_is_wrong() {
    for (arguments, wanted) in [
        (&[][..], "vectors wants SEED COUNT OPERATION..; see vectors --help"),
        (&["1", "1"], "vectors wants one operation at least; see vectors --help"),
        (&["x", "1", "case"], "SEED is not an unsigned 64-bit number"),
        (&["1", "-1", "case"], "COUNT is not a number from 0 to 4294967295"),
        (&["1", "1", "cases"], "unexpected argument 'cases'"),
        (&["1", "1", "case", "case"], "unexpected argument 'case'"),
        (&["1", "1", "case", "--corpus"], "--corpus wants a directory"),
    ] {
        assert_eq!(fault(arguments), wanted);
    }
    let directory = scratch("vectors-wrong");
    let path = directory.to_str().expect("text");
    let wanted = format!("no file NAME.case in '{path}'");
    assert_eq!(fault(&["1", "1", "case", "--corpus", path]), wanted);
    std::fs::write(directory.join("a.case"), b"").expect("written");
    let unread = |file: &PathBuf| {
        let why = std::fs::read(file).expect_err("nothing is there");
        format!("cannot read '{}': {why}", file.display())
    };
    let wanted = unread(&directory.join("a.cert"));
    assert_eq!(fault(&["1", "1", "case", "--corpus", path]), wanted);
    let missing = directory.join("missing");
    let told = fault(&["1", "1", "case", "--corpus", missing.to_str().expect("text")]);
    assert_eq!(told, unread(&missing));
}
