//! Calls drawn at random from a few hundred pairs, and calls made of the pairs
//! of the corpus.

use super::harm::{harm_file, harm_numbers, telling_shape, Shape, MOST_NUMBERS};
use super::{Call, Operation};
use crate::damage::{
    broken_rows, minima_above_maxima, quantities_above_their_bounds, reserve_of_tripped,
    steps_against_their_rule,
};
use crate::generate::{varied_pair, Pair};
use crate::layout::{self, Counts, FieldsOf, Version, MOST_FLOWGATES, MOST_RESOURCES, MOST_ZONES};
use crate::operations::WRITTEN;
use crate::random::Random;

/// The damage that needs the meaning of a case. It leaves the size of both
/// files as it was; all other damage is done to the bytes, when a call is drawn.
const KINDS: [fn(&Pair) -> Vec<crate::damage::Damaged>; 5] = [
    quantities_above_their_bounds,
    steps_against_their_rule,
    minima_above_maxima,
    broken_rows,
    reserve_of_tripped,
];

/// How many damages of a kind are kept of a pair.
const KEPT: usize = 16;

/// How many pairs are drawn, from small ones to large ones, and how often in a
/// hundred calls one of them is used.
const GROUPS: [Group; 3] = [
    Group { pairs: 160, chance: 76, most: Counts { resources: 4, zones: 3, flowgates: 3 } },
    Group { pairs: 40, chance: 18, most: Counts { resources: 12, zones: 4, flowgates: 6 } },
    Group {
        pairs: 6,
        chance: 6,
        most: Counts { resources: MOST_RESOURCES, zones: MOST_ZONES, flowgates: MOST_FLOWGATES },
    },
];

struct Group {
    pairs: usize,
    chance: i64,
    most: Counts,
}

/// The two files of a pair.
#[derive(Clone, Debug)]
pub struct Files {
    pub case: Vec<u8>,
    pub certificate: Vec<u8>,
}

/// An accepted pair, and some damage to it.
#[derive(Clone, Debug)]
struct Base {
    case_shape: Shape,
    certificate_shape: Shape,
    sound: Files,
    damaged: Vec<Vec<Files>>,
}

/// Draws calls; the same seed gives the same calls.
pub struct Source {
    random: Random,
    groups: Vec<Vec<Base>>,
}

impl Source {
    pub fn new(seed: u64) -> Source {
        let mut random = Random::new(seed);
        let mut groups = Vec::new();
        for group in &GROUPS {
            groups.push((0..group.pairs).map(|index| base(&mut random, group, index)).collect());
        }
        Source { random, groups }
    }

    pub fn call(&mut self, operation: Operation) -> Call {
        let Source { random, groups } = self;
        let group = &groups[drawn_group(random)];
        let base = &group[random.index(group.len())];
        match operation {
            Operation::CheckCase => Call::CheckCase { case: drawn_case(random, base) },
            Operation::CheckCertificate => {
                let Files { case, certificate } = drawn_pair(random, group, base);
                Call::CheckCertificate { case, certificate }
            }
            Operation::Prices => {
                let Files { case, certificate } = drawn_pair(random, group, base);
                let room = drawn_room(random, prices_of(&case));
                Call::Prices { case, certificate, room }
            }
            Operation::Charges => {
                let Files { case, certificate } = drawn_pair(random, group, base);
                let room = drawn_room(random, charges_of(&case));
                Call::Charges { case, certificate, room }
            }
            Operation::ReadCase => {
                let case = drawn_case(random, base);
                let room = drawn_room(random, numbers_of(&case, layout::case_fields));
                Call::ReadCase { case, room }
            }
            Operation::ReadCertificate => {
                let certificate = drawn_certificate(random, base);
                let room = drawn_room(random, numbers_of(&certificate, layout::certificate_fields));
                Call::ReadCertificate { certificate, room }
            }
            Operation::WriteCase => {
                let start = &started(random, base).case;
                let numbers = drawn_numbers(random, &base.case_shape, start);
                let room = drawn_room(random, bytes_of(&numbers, layout::case_fields));
                Call::WriteCase { numbers, room }
            }
            Operation::WriteCertificate => {
                let start = &started(random, base).certificate;
                let numbers = drawn_numbers(random, &base.certificate_shape, start);
                let room = drawn_room(random, bytes_of(&numbers, layout::certificate_fields));
                Call::WriteCertificate { numbers, room }
            }
        }
    }
}

/// The first two pairs of a group are of the greatest and of the least size.
fn base(random: &mut Random, group: &Group, index: usize) -> Base {
    let version = random.pick(&Version::ALL);
    let counts = match index {
        0 => group.most,
        1 => Counts { resources: 1, zones: 1, flowgates: 0 },
        _ => Counts {
            resources: random.edgy(1, group.most.resources as i64) as usize,
            zones: random.edgy(1, group.most.zones as i64) as usize,
            flowgates: random.edgy(0, group.most.flowgates as i64) as usize,
        },
    };
    let pair = varied_pair(random, version, counts);
    let mut damaged = Vec::new();
    for kind in KINDS {
        let mut list = kind(&pair);
        while list.len() > KEPT {
            list.swap_remove(random.index(list.len()));
        }
        // Some rows cannot be broken in some pairs, and some have no trips.
        if !list.is_empty() {
            damaged.push(
                list.into_iter()
                    .map(|one| Files { case: one.case, certificate: one.certificate })
                    .collect(),
            );
        }
    }
    Base {
        case_shape: Shape::new(version, counts, layout::case_fields),
        certificate_shape: Shape::new(version, counts, layout::certificate_fields),
        sound: Files { case: pair.case_file(), certificate: pair.certificate_file() },
        damaged,
    }
}

fn drawn_group(random: &mut Random) -> usize {
    let mut left = random.between(1, 100);
    for (index, group) in GROUPS.iter().enumerate() {
        left -= group.chance;
        if left <= 0 {
            return index;
        }
    }
    0
}

/// The pair as it is, or one of its damages.
fn started<'a>(random: &mut Random, base: &'a Base) -> &'a Files {
    if base.damaged.is_empty() || random.percent(65) {
        return &base.sound;
    }
    let kind = &base.damaged[random.index(base.damaged.len())];
    &kind[random.index(kind.len())]
}

/// How often a single file or list is harmed: mostly once.
fn drawn_harms(random: &mut Random) -> usize {
    match random.between(0, 19) {
        0..=5 => 0,
        6..=16 => 1,
        17 | 18 => 2,
        _ => 3,
    }
}

fn drawn_case(random: &mut Random, base: &Base) -> Vec<u8> {
    let mut case = started(random, base).case.clone();
    for _ in 0..drawn_harms(random) {
        harm_file(random, &base.case_shape, &mut case);
    }
    case
}

fn drawn_certificate(random: &mut Random, base: &Base) -> Vec<u8> {
    let mut certificate = started(random, base).certificate.clone();
    base.certificate_shape.set_prices(random, &mut certificate);
    for _ in 0..drawn_harms(random) {
        harm_file(random, &base.certificate_shape, &mut certificate);
    }
    certificate
}

fn drawn_numbers(random: &mut Random, shape: &Shape, file: &[u8]) -> Vec<i64> {
    let mut numbers = shape.numbers(file);
    for _ in 0..drawn_harms(random) {
        harm_numbers(random, shape, &mut numbers);
    }
    numbers
}

/// Lays out both files with the same telling number of flowgates, so that
/// nothing but that number is wrong, or one file alone.
fn take_telling_flowgates(random: &mut Random, base: &Base, files: &mut Files) {
    let case_shape = telling_shape(random, &base.case_shape);
    let certificate_shape = base.certificate_shape.of_flowgates(case_shape.counts.flowgates);
    let which = random.between(0, 4);
    if which < 4 {
        files.case = base.case_shape.lay_out(&case_shape, &files.case);
    }
    if which != 3 {
        let certificate = &mut files.certificate;
        *certificate = base.certificate_shape.lay_out(&certificate_shape, certificate);
    }
}

/// A pair that is accepted in two of five calls or so.
fn drawn_pair(random: &mut Random, group: &[Base], base: &Base) -> Files {
    let mut files = started(random, base).clone();
    if random.percent(50) {
        base.certificate_shape.set_prices(random, &mut files.certificate);
    }
    match random.between(0, 19) {
        0..=11 => {}
        12 => take_telling_flowgates(random, base, &mut files),
        13..=15 => harm_file(random, &base.certificate_shape, &mut files.certificate),
        16 => {
            harm_file(random, &base.certificate_shape, &mut files.certificate);
            harm_file(random, &base.certificate_shape, &mut files.certificate);
        }
        17 => harm_file(random, &base.case_shape, &mut files.case),
        18 => {
            harm_file(random, &base.case_shape, &mut files.case);
            harm_file(random, &base.certificate_shape, &mut files.certificate);
        }
        _ if random.percent(30) => std::mem::swap(&mut files.case, &mut files.certificate),
        _ => files.certificate = group[random.index(group.len())].sound.certificate.clone(),
    }
    files
}

/// Room for a buffer of which a success would fill `needed` items.
fn drawn_room(random: &mut Random, needed: usize) -> usize {
    match random.between(0, 19) {
        0..=7 => needed,
        8..=11 => needed.saturating_sub(1),
        12..=16 => needed + random.between(1, 40) as usize,
        17 => 0,
        _ => random.between(0, needed as i64) as usize,
    }
}

/// The counts of a file, too many flowgates among them: a buffer has the room
/// that an answer would need, so that it is not refused for want of room.
fn counts_of(file: &[u8]) -> Option<Counts> {
    let [resources, zones, flowgates] = layout::announced_numbers(file)?;
    Counts::of_any_flowgates(resources, zones, flowgates)
}

/// The version of a file. An unknown one is taken for the newest, so that such a
/// file has a buffer with room as well, and numbers.
fn version_of(file: &[u8]) -> Version {
    layout::announced_version(file).unwrap_or(Version::NEWEST)
}

fn prices_of(case: &[u8]) -> usize {
    counts_of(case).map_or(0, Counts::price_count)
}

fn charges_of(case: &[u8]) -> usize {
    counts_of(case).map_or(0, |counts| counts.charge_count(version_of(case)))
}

fn numbers_of(file: &[u8], fields: FieldsOf) -> usize {
    let version = version_of(file);
    counts_of(file).map_or(0, |counts| 3 + fields(version, counts).len()).min(MOST_NUMBERS)
}

fn bytes_of(numbers: &[i64], fields: FieldsOf) -> usize {
    let counts = match numbers {
        [resources, zones, flowgates, ..] => {
            Counts::of_any_flowgates(*resources, *zones, *flowgates)
        }
        _ => None,
    };
    counts.map_or(0, |counts| layout::file_size(&fields(WRITTEN, counts)))
}

/// The calls of an operation with one pair of files, as they stand. Where a
/// buffer is lent, it is once too short by one item, once long enough and once
/// longer. A file of too many flowgates has its numbers written as well. One
/// whose size is not what its counts need has no numbers to be written, nor has
/// one with more than a host has room for.
pub fn corpus_calls(operation: Operation, files: &Files) -> Vec<Call> {
    let Files { case, certificate } = files.clone();
    match operation {
        Operation::CheckCase => vec![Call::CheckCase { case }],
        Operation::CheckCertificate => vec![Call::CheckCertificate { case, certificate }],
        Operation::Prices => rooms(prices_of(&case))
            .map(|room| Call::Prices { case: case.clone(), certificate: certificate.clone(), room })
            .into(),
        Operation::Charges => rooms(charges_of(&case))
            .map(|room| Call::Charges {
                case: case.clone(),
                certificate: certificate.clone(),
                room,
            })
            .into(),
        Operation::ReadCase => rooms(numbers_of(&case, layout::case_fields))
            .map(|room| Call::ReadCase { case: case.clone(), room })
            .into(),
        Operation::ReadCertificate => rooms(numbers_of(&certificate, layout::certificate_fields))
            .map(|room| Call::ReadCertificate { certificate: certificate.clone(), room })
            .into(),
        Operation::WriteCase => match numbers_in(&case, layout::case_fields) {
            None => Vec::new(),
            Some(numbers) => rooms(case.len())
                .map(|room| Call::WriteCase { numbers: numbers.clone(), room })
                .into(),
        },
        Operation::WriteCertificate => match numbers_in(&certificate, layout::certificate_fields) {
            None => Vec::new(),
            Some(numbers) => rooms(certificate.len())
                .map(|room| Call::WriteCertificate { numbers: numbers.clone(), room })
                .into(),
        },
    }
}

fn rooms(needed: usize) -> [usize; 3] {
    [needed.saturating_sub(1), needed, needed + 7]
}

fn numbers_in(file: &[u8], fields: FieldsOf) -> Option<Vec<i64>> {
    let shape = Shape::new(version_of(file), counts_of(file)?, fields);
    let is_whole = file.len() == layout::file_size(&shape.fields);
    (is_whole && numbers_of(file, fields) < MOST_NUMBERS).then(|| shape.numbers(file))
}
