//! The two files as lists of fields: how wide each field is, and which values
//! it may hold, in each version. Reading, writing, the range checks and the
//! generator's damage all go by these lists.

mod tables;
mod version;

pub use tables::{case_fields, certificate_fields};
pub use version::Version;

use std::ops::Range;

/// The three counts that fix the shape of a case and of its certificates.
#[derive(Clone, Copy, Debug, PartialEq, Eq)]
pub struct Counts {
    pub resources: usize,
    pub zones: usize,
    pub flowgates: usize,
}

pub const MOST_RESOURCES: usize = 64;
pub const MOST_ZONES: usize = 8;
pub const MOST_FLOWGATES: usize = 12;

/// Length (four bytes), version and the three counts, in every version.
pub const HEAD: usize = 8;

/// What 1 and 8 ask for at least, in every version.
pub const SHORTEST_CASE: usize = 170;
pub const SHORTEST_CERTIFICATE: usize = 44;

pub const ENERGY_STEPS: usize = 10;
pub const CURVE_STEPS: usize = 4;
/// In all versions together.
pub const CURVES: usize = 4;

impl Counts {
    /// The counts as written, or None if one is out of range.
    pub fn within_range(resources: i64, zones: i64, flowgates: i64) -> Option<Counts> {
        Counts::of_any_flowgates(resources, zones, flowgates)
            .filter(|counts| counts.flowgates <= MOST_FLOWGATES)
    }

    /// As within range, but with as many flowgates as their byte can tell: such
    /// a file can be laid out, though it is refused.
    pub fn of_any_flowgates(resources: i64, zones: i64, flowgates: i64) -> Option<Counts> {
        let in_range = (1..=MOST_RESOURCES as i64).contains(&resources)
            && (1..=MOST_ZONES as i64).contains(&zones)
            && Width::U8.holds(flowgates);
        in_range.then_some(Counts {
            resources: resources as usize,
            zones: zones as usize,
            flowgates: flowgates as usize,
        })
    }

    /// LMPs and zone prices, as many in every version.
    pub fn price_count(self) -> usize {
        self.resources + 4 * self.zones
    }
}

/// How a number lies in the file; all are big-endian.
#[derive(Clone, Copy, Debug, PartialEq, Eq)]
pub enum Width {
    U8,
    U16,
    I16,
    U32,
    I32,
}

impl Width {
    pub fn size(self) -> usize {
        match self {
            Width::U8 => 1,
            Width::U16 | Width::I16 => 2,
            Width::U32 | Width::I32 => 4,
        }
    }

    /// The least and the greatest number the bytes can hold.
    pub fn ends(self) -> (i64, i64) {
        match self {
            Width::U8 => (0, i64::from(u8::MAX)),
            Width::U16 => (0, i64::from(u16::MAX)),
            Width::I16 => (i64::from(i16::MIN), i64::from(i16::MAX)),
            Width::U32 => (0, i64::from(u32::MAX)),
            Width::I32 => (i64::from(i32::MIN), i64::from(i32::MAX)),
        }
    }

    pub fn holds(self, number: i64) -> bool {
        let (least, most) = self.ends();
        (least..=most).contains(&number)
    }

    fn read(self, bytes: &[u8]) -> i64 {
        let raw = bytes.iter().fold(0i64, |sum, byte| sum * 256 + i64::from(*byte));
        let (_, most) = self.ends();
        if raw > most {
            raw - (1 << (8 * self.size()))
        } else {
            raw
        }
    }

    fn write(self, number: i64, out: &mut Vec<u8>) {
        let all = number.to_be_bytes();
        out.extend_from_slice(&all[all.len() - self.size()..]);
    }
}

/// A part of a file: its head, or what stands in it once for each zone, resource
/// or flowgate.
#[derive(Clone, Copy, Debug, PartialEq, Eq)]
pub enum Part {
    Head,
    Zone,
    Resource,
    Flowgate,
}

impl Part {
    /// The zones, resources or flowgates that have such a part; 0 for the head.
    fn owners(self, counts: Counts) -> Range<usize> {
        match self {
            Part::Head => 0..1,
            Part::Zone => 1..counts.zones + 1,
            Part::Resource => 1..counts.resources + 1,
            Part::Flowgate => 1..counts.flowgates + 1,
        }
    }
}

/// One field of a file, and the values the paper allows it.
#[derive(Clone, Copy, Debug, PartialEq, Eq)]
pub struct Field {
    pub name: &'static str,
    pub part: Part,
    /// The zone, resource or flowgate it belongs to, from 1; 0 if to none.
    pub of: usize,
    /// Which it is of those of its name there, from 0: steps and shift factors.
    pub index: usize,
    pub width: Width,
    pub least: i64,
    pub most: i64,
    /// Whether it is a certificate's quantity; its other fields are prices.
    pub quantity: bool,
}

impl Field {
    pub fn allows(&self, number: i64) -> bool {
        (self.least..=self.most).contains(&number)
    }

    pub fn is_of_flowgate(&self) -> bool {
        self.part == Part::Flowgate
    }
}

/// The fields of a case, or those of a certificate.
pub type FieldsOf = fn(Version, Counts) -> Vec<Field>;

/// Bytes of a file with these fields.
pub fn file_size(fields: &[Field]) -> usize {
    HEAD + fields.iter().map(|field| field.width.size()).sum::<usize>()
}

/// The numbers of the fields, read from a whole file. Bytes that are not there
/// read as nothing; callers have checked the size before.
pub fn read_fields(file: &[u8], fields: &[Field]) -> Vec<i64> {
    let mut at = HEAD;
    let mut numbers = Vec::with_capacity(fields.len());
    for field in fields {
        let end = at + field.width.size();
        numbers.push(field.width.read(file.get(at..end).unwrap_or(&[])));
        at = end;
    }
    numbers
}

/// The numbers of a head, or of one zone, resource or flowgate, found by the
/// names of their fields.
#[derive(Clone, Copy, Debug, Default)]
pub struct Record<'a> {
    fields: &'a [Field],
    numbers: &'a [i64],
}

impl<'a> Record<'a> {
    pub fn is_of(&self, part: Part) -> bool {
        self.fields.first().is_some_and(|field| field.part == part)
    }

    /// The number of the field of this name; 0 if the version has none.
    pub fn number(self, name: &'static str) -> i64 {
        self.all(name).next().unwrap_or(0)
    }

    /// The numbers of all fields of this name, in their order.
    pub fn all(self, name: &'static str) -> impl Iterator<Item = i64> + 'a {
        let named = self.fields.iter().zip(self.numbers).filter(move |(it, _)| it.name == name);
        named.map(|(_, number)| *number)
    }
}

/// The records of a file, in its order. Numbers that are not there read as 0.
pub fn records<'a>(fields: &'a [Field], numbers: &'a [i64]) -> Vec<Record<'a>> {
    let mut left = numbers;
    let mut records = Vec::new();
    for fields in fields.chunk_by(|one, next| (one.part, one.of) == (next.part, next.of)) {
        let (numbers, rest) = left.split_at(fields.len().min(left.len()));
        left = rest;
        records.push(Record { fields, numbers });
    }
    records
}

/// A whole file: length, version, counts and the numbers of the fields. A
/// number must fit its field; callers have looked.
pub fn write_fields(
    version: Version,
    counts: Counts,
    numbers: &[i64],
    fields: &[Field],
) -> Vec<u8> {
    let size = file_size(fields);
    let mut out = Vec::with_capacity(size);
    Width::U32.write((size - 4) as i64, &mut out);
    out.push(version.byte());
    for count in [counts.resources, counts.zones, counts.flowgates] {
        Width::U8.write(count as i64, &mut out);
    }
    for (field, number) in fields.iter().zip(numbers) {
        field.width.write(*number, &mut out);
    }
    out
}

/// The numbers of a file's fields as those of another number of flowgates:
/// its own flowgates from the first on, and over again if there are too few. If
/// it has none, those added have limit, shift factors and price 0. A schedule
/// that keeps every row of the case keeps every row of what it becomes.
pub fn with_flowgates(fields: &[Field], numbers: &[i64], wanted: &[Field]) -> Vec<i64> {
    let chosen = |of_flowgate: bool| {
        let pairs = fields.iter().zip(numbers);
        pairs.filter(move |(field, _)| field.is_of_flowgate() == of_flowgate).map(|(_, it)| *it)
    };
    let mut of_flowgates = chosen(true).cycle();
    let mut others = chosen(false);
    let next = |field: &Field| {
        if field.is_of_flowgate() {
            of_flowgates.next()
        } else {
            others.next()
        }
    };
    wanted.iter().map(next).map(|number| number.unwrap_or(0)).collect()
}

/// Whether the length a file announces is the number of bytes after it.
pub fn length_is_right(file: &[u8]) -> bool {
    announced_size(file) == Some(file.len())
}

/// The whole size that the first four bytes announce, themselves included.
pub fn announced_size(file: &[u8]) -> Option<usize> {
    let length = Width::U32.read(file.get(..4)?);
    usize::try_from(length).ok()?.checked_add(4)
}

/// The three counts a file announces, whatever they are.
pub fn announced_numbers(file: &[u8]) -> Option<[i64; 3]> {
    match file.get(5..HEAD)? {
        [resources, zones, flowgates] => Some([*resources, *zones, *flowgates].map(i64::from)),
        _ => None,
    }
}

/// The counts a file announces, or None if one is out of range or missing.
pub fn announced_counts(file: &[u8]) -> Option<Counts> {
    let [resources, zones, flowgates] = announced_numbers(file)?;
    Counts::within_range(resources, zones, flowgates)
}

/// The version a file announces, or None if it is unknown or missing.
pub fn announced_version(file: &[u8]) -> Option<Version> {
    Version::of(*file.get(4)?)
}
