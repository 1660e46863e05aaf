//! A trial that differs is made small: resources, zones and flowgates are taken out of both files at once, then figures are
//! set to 0 or halved, then bytes cut off, for as long as it still differs.

use crate::subject::Subject;
use crate::trial::{Trial, What};
use nostwier_reference::layout::{self, Counts, Field, Version};
use nostwier_reference::operations::WRITTEN;
use nostwier_reference::vectors::Operation;
use std::time::{Duration, Instant};

const LONGEST: Duration = Duration::from_secs(20);

/// The smallest trial found, and what is wrong with it.
pub fn shrunk(subject: &Subject, trial: Trial, why: String) -> Result<(Trial, String), String> {
    let end = Instant::now() + LONGEST;
    let mut best = (trial, why);
    loop {
        let before = size_of(&best.0);
        for stage in [parts, figures, bytes] {
            walk(subject, &mut best, stage, end)?;
        }
        if size_of(&best.0) == before || Instant::now() > end {
            return Ok(best);
        }
    }
}

/// Goes through a stage's changes once, and makes each that leaves a smaller trial which still differs. Batches grow while
/// nothing is found.
fn walk(
    subject: &Subject,
    best: &mut (Trial, String),
    stage: fn(&Trial) -> Vec<Trial>,
    end: Instant,
) -> Result<(), String> {
    let mut changes = stage(&best.0);
    let mut from = 0;
    let mut count = 8;
    while from < changes.len() && Instant::now() < end {
        let to = (from + count).min(changes.len());
        let size = size_of(&best.0);
        let places: Vec<usize> =
            (from..to).filter(|place| size_of(&changes[*place]) < size).collect();
        let batch: Vec<Trial> = places.iter().map(|place| changes[*place].clone()).collect();
        if let Some((index, why)) = subject.differences(&batch)?.into_iter().next() {
            let length = changes.len();
            *best = (batch[index].clone(), why);
            changes = stage(&best.0);
            // The same change once more, unless it has made another list of changes.
            from = if changes.len() == length { places[index] } else { 0 };
            count = 8;
        } else {
            from = to;
            count *= 2;
        }
    }
    Ok(())
}

/// Bytes and items that are lent, then how many figures there are to look at, then how large they are.
fn size_of(trial: &Trial) -> (usize, u64, u64) {
    let files = [&trial.case[..], &trial.certificate].concat();
    let lent = files.len() + 8 * trial.numbers.len() + trial.room;
    let of_numbers = |f: fn(u64) -> u64| -> u64 {
        trial.numbers.iter().map(|number| f(number.unsigned_abs())).sum()
    };
    let shown = files.iter().filter(|byte| **byte != 0).count() as u64
        + of_numbers(|it| u64::from(it != 0));
    let large = files.iter().map(|byte| u64::from(*byte)).sum::<u64>()
        + of_numbers(|it| u64::from(64 - it.leading_zeros()));
    (lent, shown, large)
}

/// A file or a writer's list as numbers, the counts left out.
#[derive(Clone)]
struct Figures {
    version: Version,
    counts: Counts,
    numbers: Vec<i64>,
    is_case: bool,
}

/// How many numbers stand before the zones, and how many belong to a resource.
const CASE: (usize, usize) = (45, 43);
const CERTIFICATE: (usize, usize) = (9, 10);

impl Figures {
    fn fields(&self) -> Vec<Field> {
        if self.is_case {
            layout::case_fields(self.version, self.counts)
        } else {
            layout::certificate_fields(self.version, self.counts)
        }
    }

    /// None unless the file has version and size of its counts.
    fn of_file(file: &[u8], is_case: bool) -> Option<Figures> {
        let version = layout::announced_version(file)?;
        let counts = layout::announced_counts(file)?;
        let mut figures = Figures { version, counts, numbers: Vec::new(), is_case };
        let fields = figures.fields();
        let sound = layout::length_is_right(file)
            && file.len() == layout::file_size(&fields);
        figures.numbers = if sound { layout::read_fields(file, &fields) } else { return None };
        Some(figures)
    }

    fn of_list(list: &[i64], is_case: bool) -> Option<Figures> {
        let [resources, zones, flowgates, numbers @ ..] = list else {
            return None;
        };
        let counts = Counts::within_range(*resources, *zones, *flowgates)?;
        let figures = Figures { version: WRITTEN, counts, numbers: numbers.to_vec(), is_case };
        (figures.fields().len() == numbers.len()).then_some(figures)
    }

    fn file(&self) -> Vec<u8> {
        layout::write_fields(self.version, self.counts, &self.numbers, &self.fields())
    }

    fn list(&self) -> Vec<i64> {
        let Counts { resources, zones, flowgates } = self.counts;
        let counts = [resources, zones, flowgates].map(|count| count as i64);
        [&counts[..], &self.numbers].concat()
    }

    /// Where resource i begins.
    fn resource(&self, i: usize) -> usize {
        let (head, each) = if self.is_case { CASE } else { CERTIFICATE };
        let gates = if self.is_case { 0 } else { self.counts.flowgates };
        head + 4 * self.counts.zones + gates + each * i
    }

    fn without_resource(&self, i: usize) -> Option<Figures> {
        let mut out = self.clone();
        let r = self.counts.resources;
        out.counts.resources = r.checked_sub(1).filter(|left| *left > 0)?;
        if self.is_case {
            // from the last flowgate to the first, so that places before it stay
            for gate in (0..self.counts.flowgates).rev() {
                out.numbers.remove(self.resource(r) + gate * (r + 1) + 1 + i);
            }
        }
        out.numbers.drain(self.resource(i)..self.resource(i + 1));
        Some(out)
    }

    /// Nothing cleared, and no zone asks for anything.
    fn without_requirements(&self) -> Figures {
        let mut out = self.clone();
        let zones = CASE.0..CASE.0 + 4 * self.counts.zones;
        out.numbers[if self.is_case { zones } else { 0..4 }].fill(0);
        out
    }

    fn without_zone(&self, zone: usize) -> Option<Figures> {
        let mut out = self.clone();
        out.counts.zones = self.counts.zones.checked_sub(1).filter(|left| *left > 0)?;
        for i in (0..self.counts.resources).filter(|_| self.is_case) {
            let its = &mut out.numbers[self.resource(i) + 1];
            *its = if *its > zone as i64 + 1 || *its > out.counts.zones as i64 {
                *its - 1
            } else {
                *its
            };
        }
        let from = if self.is_case { CASE.0 } else { CERTIFICATE.0 } + 4 * zone;
        out.numbers.drain(from..from + 4);
        Some(out)
    }

    fn without_flowgate(&self, gate: usize) -> Option<Figures> {
        let mut out = self.clone();
        let r = self.counts.resources;
        out.counts.flowgates = self.counts.flowgates.checked_sub(1)?;
        let (from, size) = if self.is_case {
            (self.resource(r) + gate * (r + 1), r + 1)
        } else {
            (self.resource(0) - self.counts.flowgates + gate, 1)
        };
        out.numbers.drain(from..from + size);
        Some(out)
    }
}

/// The figures of both files, or of a writer's list; None of a file that is not of its form.
fn figures_of(trial: &Trial) -> [Option<Figures>; 2] {
    match trial.what {
        What::Call(Operation::WriteCase) => [Figures::of_list(&trial.numbers, true), None],
        What::Call(Operation::WriteCertificate) => [None, Figures::of_list(&trial.numbers, false)],
        _ => [Figures::of_file(&trial.case, true), Figures::of_file(&trial.certificate, false)],
    }
}

/// The trial with other figures. A buffer that would be too long by as much as before stays so.
fn with(trial: &Trial, [case, certificate]: [Option<Figures>; 2]) -> Trial {
    let mut out = trial.clone();
    match trial.what {
        What::Call(Operation::WriteCase | Operation::WriteCertificate) => {
            out.numbers = case.or(certificate).map_or(trial.numbers.clone(), |it| it.list());
        }
        _ => {
            out.case = case.map_or(trial.case.clone(), |it| it.file());
            out.certificate = certificate.map_or(trial.certificate.clone(), |it| it.file());
        }
    }
    let lent = |it: &Trial| it.case.len() + it.certificate.len() + it.numbers.len();
    let less = lent(trial).saturating_sub(lent(&out));
    out.room = if less > 0 { trial.room.min(needed(&out) + 1) } else { trial.room };
    out
}

/// How many items a success writes, of a sound trial.
fn needed(trial: &Trial) -> usize {
    let [case, certificate] = figures_of(trial);
    let Some(figures) = case.or(certificate) else {
        return 0;
    };
    match trial.what {
        What::Call(Operation::Prices) => figures.counts.price_count(),
        What::Call(Operation::Charges) => figures.counts.charge_count(figures.version),
        What::Call(Operation::ReadCase | Operation::ReadCertificate) => 3 + figures.numbers.len(),
        What::Call(Operation::WriteCase | Operation::WriteCertificate) => figures.file().len(),
        _ => 0,
    }
}

/// Without requirements; without some resources, long runs of them first; without a zone or a flowgate: in both files at
/// once, so that a certificate stays one of its case.
fn parts(trial: &Trial) -> Vec<Trial> {
    let both = figures_of(trial);
    let Some(counts) = both.iter().flatten().map(|it| it.counts).next() else {
        return Vec::new();
    };
    let changed = |change: &dyn Fn(&Figures) -> Option<Figures>| {
        with(trial, both.each_ref().map(|it| it.as_ref().and_then(change)))
    };
    let mut out = vec![changed(&|it| Some(it.without_requirements()))];
    let mut run = counts.resources.div_ceil(2);
    while run > 0 {
        for from in (0..counts.resources).step_by(run) {
            let gone = from..(from + run).min(counts.resources);
            let rest = |it: &Figures| {
                gone.clone().rev().try_fold(it.clone(), |left, i| left.without_resource(i))
            };
            out.push(changed(&rest));
            // The same, and their energy is no longer asked for.
            if let [Some(case), Some(certificate)] = &both {
                if let (Some(mut case), true) = (rest(case), case.counts == certificate.counts) {
                    let energy = |i| certificate.numbers[certificate.resource(i)];
                    case.numbers[0] =
                        (case.numbers[0] - gone.clone().map(energy).sum::<i64>()).max(0);
                    out.push(with(trial, [Some(case), rest(certificate)]));
                }
            }
        }
        run /= 2;
    }
    out.extend((0..counts.flowgates).map(|gate| changed(&|it| it.without_flowgate(gate))));
    out.extend((0..counts.zones).map(|zone| changed(&|it| it.without_zone(zone))));
    out
}

/// Runs of figures as near to 0 as their fields allow, long runs first; then single figures halved, energy with demand.
fn figures(trial: &Trial) -> Vec<Trial> {
    let both = figures_of(trial);
    let mut out = Vec::new();
    for which in 0..2 {
        let Some(old) = &both[which] else {
            continue;
        };
        let fields = old.fields();
        let mut change = |new: Figures| {
            let mut lesser = both.clone();
            lesser[which] = Some(new);
            out.push(with(trial, lesser));
        };
        let mut run = fields.len();
        while run > 0 {
            for from in (0..fields.len()).step_by(run) {
                let mut new = old.clone();
                for (number, field) in new.numbers.iter_mut().zip(&fields).skip(from).take(run) {
                    *number = 0.clamp(field.least, field.most);
                }
                change(new);
            }
            run /= 2;
        }
        for index in 0..fields.len() {
            for divisor in [100, 2] {
                let mut new = old.clone();
                new.numbers[index] /= divisor;
                change(new);
            }
        }
    }
    if let [Some(case), Some(certificate)] = &both {
        for i in (0..certificate.counts.resources).filter(|_| case.counts == certificate.counts) {
            let energy = certificate.numbers[certificate.resource(i)];
            for left in [0, energy / 2] {
                let (mut case, mut certificate) = (case.clone(), certificate.clone());
                let at = certificate.resource(i);
                certificate.numbers[at] = left;
                case.numbers[0] = (case.numbers[0] - energy + left).max(0);
                out.push(with(trial, [Some(case), Some(certificate)]));
            }
        }
    }
    out
}

/// Files and lists that are shorter, or have a byte less to look at; and smaller buffers.
fn bytes(trial: &Trial) -> Vec<Trial> {
    let mut out = Vec::new();
    for room in [0, needed(trial).saturating_sub(1), needed(trial), trial.room / 2] {
        out.push(Trial { room, ..trial.clone() });
    }
    for length in [0, trial.numbers.len() / 2, trial.numbers.len().saturating_sub(1)] {
        out.push(Trial { numbers: trial.numbers[..length].to_vec(), ..trial.clone() });
    }
    for index in 0..trial.numbers.len() {
        for divisor in [i64::MAX, 2] {
            let mut new = trial.clone();
            new.numbers[index] /= divisor;
            out.push(new);
        }
    }
    for which in 0..2 {
        let file = |it: &Trial| if which == 0 { it.case.clone() } else { it.certificate.clone() };
        let mut change = |bytes: Vec<u8>| {
            let mut new = trial.clone();
            *(if which == 0 { &mut new.case } else { &mut new.certificate }) = bytes;
            out.push(new);
        };
        let old = file(trial);
        for length in [0, 4, 8, old.len() / 2, old.len().saturating_sub(1)] {
            let mut new = old[..length.min(old.len())].to_vec();
            change(new.clone());
            if new.len() >= 4 {
                let announced = (new.len() - 4) as u32;
                new[..4].copy_from_slice(&announced.to_be_bytes());
                change(new);
            }
        }
        let mut run = old.len();
        while run > 0 {
            for from in (0..old.len()).step_by(run) {
                let mut new = old.clone();
                new.iter_mut().skip(from).take(run).for_each(|byte| *byte = 0);
                change(new);
            }
            run /= 2;
        }
    }
    out
}
