//! New trials: drawn by the generator, or mutated from files that once brought an outcome that was new. The library's
//! object code carries no coverage counters; what guides the choice instead is the reference's outcome: each refusal with
//! its place or row, and the size and signs of what is accepted.

use crate::trial::{Outcome, Trial};
use nostwier_reference::certificate::accept;
use nostwier_reference::damage::some_damage;
use nostwier_reference::generate::Pair;
use nostwier_reference::layout::{self, Counts, FieldsOf, Version};
use nostwier_reference::operations::WRITTEN;
use nostwier_reference::random::Random;
use nostwier_reference::vectors::harm::{harm_file, harm_numbers, Shape};
use nostwier_reference::vectors::{corpus_calls, Call, Files, Operation, Source};
use std::collections::HashSet;

const MOST_SEEDS: usize = 4096;

pub struct Mutator {
    random: Random,
    source: Source,
    seeds: Vec<Files>,
    seen: HashSet<Outcome>,
}

impl Mutator {
    pub fn new(seed: u64, corpus: Vec<Files>) -> Mutator {
        let mut random = Random::new(seed);
        let source = Source::new(random.bits());
        Mutator { random, source, seeds: corpus, seen: HashSet::new() }
    }

    pub fn outcomes(&self) -> usize {
        self.seen.len()
    }

    /// Keeps the files of a trial whose outcome is new.
    pub fn learn(&mut self, trial: &Trial) {
        let outcome = trial.bytes().ok().and_then(|record| trial.outcome(&record));
        let new = outcome.is_some_and(|outcome| self.seen.insert(outcome));
        if new && !trial.case.is_empty() && !trial.certificate.is_empty() {
            let files = Files { case: trial.case.clone(), certificate: trial.certificate.clone() };
            if self.seeds.len() < MOST_SEEDS {
                self.seeds.push(files);
            } else {
                let place = self.random.index(MOST_SEEDS);
                self.seeds[place] = files;
            }
        }
    }

    pub fn program(&mut self) -> Trial {
        let mut files = self.files();
        if self.random.percent(3) {
            // Above, at and below the most that the program takes.
            let length = 32_767 + self.random.index(3) - files.case.len().min(32_000);
            files.certificate.resize(length, 0);
        }
        Trial::program(files.case, files.certificate)
    }

    pub fn call(&mut self, operation: Operation) -> Trial {
        if self.random.percent(25) {
            return Trial::of_call(self.source.call(operation));
        }
        let files = self.files();
        let mut calls = corpus_calls(operation, &files);
        if calls.is_empty() {
            return Trial::of_call(self.source.call(operation));
        }
        let mut call = calls.swap_remove(self.random.index(calls.len()));
        let fields: FieldsOf = match call {
            Call::WriteCase { .. } => layout::case_fields,
            _ => layout::certificate_fields,
        };
        if let Call::WriteCase { numbers, .. } | Call::WriteCertificate { numbers, .. } = &mut call
        {
            if let Some(shape) = counts_of(numbers).map(|counts| Shape::new(WRITTEN, counts, fields)) {
                for _ in 0..self.random.between(0, 3) {
                    harm_numbers(&mut self.random, &shape, numbers);
                }
            }
        }
        Trial::of_call(call)
    }

    /// A seed, mutated up to four times.
    fn files(&mut self) -> Files {
        let place = self.random.index(self.seeds.len());
        let mut files = self.seeds[place].clone();
        for _ in 0..self.random.between(0, 4) {
            self.mutate(&mut files);
        }
        files
    }

    fn mutate(&mut self, files: &mut Files) {
        let random = &mut self.random;
        let counts = layout::announced_counts(&files.case).filter(|counts| counts.resources <= 8);
        match random.between(0, 19) {
            0..=11 => {
                let (file, fields): (_, FieldsOf) = if random.percent(50) {
                    (&mut files.case, layout::case_fields)
                } else {
                    (&mut files.certificate, layout::certificate_fields)
                };
                let Some(shape) = shape_of(file, fields) else {
                    return;
                };
                if random.percent(75) {
                    nudge(random, &shape, file);
                } else {
                    harm_file(random, &shape, file);
                }
            }
            12..=14 => {
                if let Some(shape) = shape_of(&files.certificate, layout::certificate_fields) {
                    shape.set_prices(random, &mut files.certificate);
                }
            }
            15 => {
                files.certificate = self.seeds[random.index(self.seeds.len())].certificate.clone()
            }
            // Needs the meaning of the case, and is slow for large ones.
            _ if counts.is_some() => {
                if let Ok(accepted) = accept(&files.case, &files.certificate) {
                    let pair = Pair { case: accepted.case, certificate: accepted.certificate };
                    if let Some(damaged) = some_damage(random, &pair) {
                        *files = Files { case: damaged.case, certificate: damaged.certificate };
                    }
                }
            }
            _ => {}
        }
    }
}

/// The shape that a file announces; an unknown version is taken for the newest.
fn shape_of(file: &[u8], fields: FieldsOf) -> Option<Shape> {
    let version = layout::announced_version(file).unwrap_or(Version::NEWEST);
    layout::announced_counts(file).map(|counts| Shape::new(version, counts, fields))
}

fn counts_of(numbers: &[i64]) -> Option<Counts> {
    let [resources, zones, flowgates, ..] = numbers else {
        return None;
    };
    Counts::within_range(*resources, *zones, *flowgates)
}

/// One more or less in a field, or what another field of the file holds: so figures meet, and edges are hit.
fn nudge(random: &mut Random, shape: &Shape, file: &mut [u8]) {
    if file.len() != layout::file_size(&shape.fields) {
        return;
    }
    let numbers = shape.numbers(file);
    let index = random.index(shape.fields.len());
    let old = numbers[3 + index];
    let new = match random.between(0, 5) {
        0 => old - 1,
        1 => old + 1,
        2 => old ^ (1 << random.index(8)),
        3 => random.edgy(shape.fields[index].least, shape.fields[index].most),
        _ => numbers[3 + random.index(shape.fields.len())],
    };
    if shape.fields[index].width.holds(new) {
        shape.set(file, index, new);
    }
}
