//! Harm to one file or one list of numbers, quick enough to be done a hundred
//! thousand times. What answer it must meet is for the reference to say.

use crate::damage::{random_bytes, TOO_MANY_FLOWGATES};
use crate::layout::{
    self, Counts, Field, FieldsOf, Version, HEAD, MOST_FLOWGATES, MOST_RESOURCES, MOST_ZONES,
};
use crate::random::Random;

/// No file is made longer than this.
const LONGEST: usize = 50_000;

/// No list of numbers is made longer than this, nor a buffer that is to take
/// one: a host has room for 65,536 bytes of either.
pub const MOST_NUMBERS: usize = 8_000;

/// The fields of a file after its counts, and where each begins.
#[derive(Clone, Debug)]
pub struct Shape {
    pub version: Version,
    pub counts: Counts,
    pub fields: Vec<Field>,
    places: Vec<usize>,
    of: FieldsOf,
}

impl Shape {
    pub fn new(version: Version, counts: Counts, of: FieldsOf) -> Shape {
        let fields = of(version, counts);
        let mut places = Vec::with_capacity(fields.len());
        let mut place = HEAD;
        for field in &fields {
            places.push(place);
            place += field.width.size();
        }
        Shape { version, counts, fields, places, of }
    }

    /// Counts and fields of a file as numbers, whatever their values.
    pub fn numbers(&self, file: &[u8]) -> Vec<i64> {
        let counts = self.counts;
        let counts = [counts.resources, counts.zones, counts.flowgates].map(|count| count as i64);
        [&counts[..], &layout::read_fields(file, &self.fields)].concat()
    }

    /// The shape of a file of the same version with other counts.
    fn of_counts(&self, counts: Counts) -> Shape {
        Shape::new(self.version, counts, self.of)
    }

    /// The shape of a file with another number of flowgates.
    pub fn of_flowgates(&self, flowgates: usize) -> Shape {
        self.of_counts(Counts { flowgates, ..self.counts })
    }

    /// A file of this shape laid out with the flowgates of another, its fields
    /// otherwise as they are.
    pub fn lay_out(&self, wanted: &Shape, file: &[u8]) -> Vec<u8> {
        let numbers = layout::read_fields(file, &self.fields);
        let numbers = layout::with_flowgates(&self.fields, &numbers, &wanted.fields);
        layout::write_fields(wanted.version, wanted.counts, &numbers, &wanted.fields)
    }

    /// Sets one field of a file, unless the file ends before it.
    pub fn set(&self, file: &mut [u8], index: usize, number: i64) {
        let size = self.fields[index].width.size();
        let place = self.places[index];
        if let Some(bytes) = file.get_mut(place..place + size) {
            bytes.copy_from_slice(&number.to_be_bytes()[8 - size..]);
        }
    }

    /// New prices within their ranges: any will do, so an accepted certificate
    /// stays accepted.
    pub fn set_prices(&self, random: &mut Random, certificate: &mut [u8]) {
        let chance = random.pick(&[10, 50, 100]);
        for (index, field) in self.fields.iter().enumerate() {
            if !field.quantity && random.percent(chance) {
                let price = random.edgy(field.least, field.most);
                self.set(certificate, index, price);
            }
        }
    }
}

/// A number at an end of the field's range or of what its bytes hold, just past
/// such an end, or anywhere.
fn telling_number(random: &mut Random, field: &Field) -> i64 {
    let (lowest, highest) = field.width.ends();
    match random.between(0, 9) {
        0 => field.least,
        1 => field.most,
        2 | 3 => field.least - 1,
        4 | 5 => field.most + 1,
        6 => lowest,
        7 => highest,
        8 => random.between(field.least, field.most),
        _ => random.between(lowest, highest),
    }
}

/// Harms a file in one way.
pub fn harm_file(random: &mut Random, shape: &Shape, file: &mut Vec<u8>) {
    match random.between(0, 99) {
        0..=49 => harm_field(random, shape, file),
        50..=56 => harm_bytes(random, file),
        57..=63 => cut(random, file),
        64..=67 => announce_another_length(random, file),
        68..=72 => lengthen(random, file),
        73..=76 => set_byte(file, 4, unknown_version(random)),
        77..=85 => harm_count(random, file),
        86..=92 => take_telling_flowgates(random, shape, file),
        93..=95 => take_another_shape(random, shape, file),
        96 | 97 => *file = random_bytes(random),
        98 => *file = random_file(random, shape),
        _ => file.clear(),
    }
}

fn unknown_version(random: &mut Random) -> u8 {
    let next = Version::NEWEST.byte() + 1;
    random.pick(&[0, next, next + 1, 129, 255])
}

/// Sets one field to a telling number. If its bytes cannot hold that, it is set
/// past its upper end; and a field that may hold anything stays as it is.
fn harm_field(random: &mut Random, shape: &Shape, file: &mut [u8]) {
    let index = random.index(shape.fields.len());
    let field = &shape.fields[index];
    let drawn = telling_number(random, field);
    let number = if field.width.holds(drawn) { drawn } else { field.most + 1 };
    if field.width.holds(number) {
        shape.set(file, index, number);
    }
}

fn harm_bytes(random: &mut Random, file: &mut [u8]) {
    for _ in 0..random.between(1, 4) {
        let at = random.index(file.len());
        set_byte(file, at, random.bits() as u8);
    }
}

fn set_byte(file: &mut [u8], at: usize, byte: u8) {
    if let Some(place) = file.get_mut(at) {
        *place = byte;
    }
}

/// Sets the announced length to the right one and `change` more.
fn announce(file: &mut [u8], change: i64) {
    let length = (file.len() as i64 - 4 + change) as u32;
    if let Some(bytes) = file.get_mut(..4) {
        bytes.copy_from_slice(&length.to_be_bytes());
    }
}

/// Cuts a file, with its old length or with the right one.
fn cut(random: &mut Random, file: &mut Vec<u8>) {
    let length = match random.between(0, 5) {
        0 => file.len().saturating_sub(1),
        1 => random.pick(&[3, 4, 5, 7, 8, 43, 44, 45, 169, 170, 171]),
        _ => random.index(file.len()),
    };
    file.truncate(length);
    if random.percent(50) {
        announce(file, 0);
    }
}

fn announce_another_length(random: &mut Random, file: &mut [u8]) {
    let change = match random.between(0, 9) {
        0..=3 => -1,
        4..=7 => 1,
        8 => 4,
        _ => random.between(0, i64::from(u32::MAX)),
    };
    announce(file, change);
}

/// Adds bytes at the end, with the old length or with the right one.
fn lengthen(random: &mut Random, file: &mut Vec<u8>) {
    let more = match random.between(0, 19) {
        0..=9 => 1,
        10..=18 => random.between(2, 20),
        _ => random.between(1000, 30_000),
    };
    let byte = random.pick(&[0, 1, 255]);
    file.resize((file.len() + more as usize).min(LONGEST), byte);
    if random.percent(50) {
        announce(file, 0);
    }
}

/// One of the three counts out of its range, at an end of it, or off by one.
fn harm_count(random: &mut Random, file: &mut [u8]) {
    let which = random.index(3);
    let at = 5 + which;
    let now = file.get(at).copied().unwrap_or(0);
    let count = match random.between(0, 5) {
        0 => 0,
        1..=3 => telling_count(random, which) as u8,
        4 => now.wrapping_sub(1),
        _ => now.wrapping_add(1),
    };
    set_byte(file, at, count);
}

/// The largest of a count's range, or one past it; of flowgates, now and then
/// one that an earlier range had.
fn telling_count(random: &mut Random, which: usize) -> usize {
    let past = u8::MAX as usize;
    match which {
        0 => random.pick(&[MOST_RESOURCES, MOST_RESOURCES + 1, past]),
        1 => random.pick(&[MOST_ZONES, MOST_ZONES + 1, past]),
        _ => telling_flowgates(random),
    }
}

/// As many flowgates as are allowed, or too many.
fn telling_flowgates(random: &mut Random) -> usize {
    let [next, earlier, past_earlier, past] = TOO_MANY_FLOWGATES;
    let most = MOST_FLOWGATES;
    random.pick(&[most, most, next, next, next, earlier, earlier, earlier, past_earlier, past])
}

/// The shape with a telling number of flowgates: one that is refused for that
/// number alone, or none too many.
pub fn telling_shape(random: &mut Random, shape: &Shape) -> Shape {
    let wanted = shape.of_flowgates(telling_flowgates(random));
    if 3 + wanted.fields.len() > MOST_NUMBERS {
        return shape.of_flowgates(MOST_FLOWGATES + 1);
    }
    wanted
}

/// The file laid out with a telling number of flowgates.
fn take_telling_flowgates(random: &mut Random, shape: &Shape, file: &mut Vec<u8>) {
    *file = shape.lay_out(&telling_shape(random, shape), file);
}

fn any_counts(random: &mut Random) -> Counts {
    let most = if random.percent(10) { MOST_RESOURCES } else { 5 };
    Counts {
        resources: random.edgy(1, most as i64) as usize,
        zones: random.edgy(1, MOST_ZONES as i64) as usize,
        flowgates: random.edgy(0, MOST_FLOWGATES as i64) as usize,
    }
}

fn put_counts(file: &mut [u8], counts: Counts) {
    for (at, count) in (5..).zip([counts.resources, counts.zones, counts.flowgates]) {
        set_byte(file, at, count as u8);
    }
}

/// Other counts, and the size that they need.
fn take_another_shape(random: &mut Random, shape: &Shape, file: &mut Vec<u8>) {
    let other = shape.of_counts(any_counts(random));
    file.resize(layout::file_size(&other.fields), 0);
    put_counts(file, other.counts);
    announce(file, 0);
}

/// A file whose head and size are right and whose fields are random bytes.
fn random_file(random: &mut Random, shape: &Shape) -> Vec<u8> {
    let other = shape.of_counts(any_counts(random));
    let size = layout::file_size(&other.fields);
    let mut file: Vec<u8> = (0..size).map(|_| random.bits() as u8).collect();
    announce(&mut file, 0);
    set_byte(&mut file, 4, other.version.byte());
    put_counts(&mut file, other.counts);
    file
}

/// Harms a list of numbers for a writer in one way.
pub fn harm_numbers(random: &mut Random, shape: &Shape, numbers: &mut Vec<i64>) {
    match random.between(0, 99) {
        0..=60 => {
            let index = random.index(shape.fields.len());
            let number = telling_number_of_64_bits(random, &shape.fields[index]);
            if let Some(place) = numbers.get_mut(3 + index) {
                *place = number;
            }
        }
        61..=65 => {
            numbers.pop();
        }
        66..=70 => numbers.push(random.pick(&[0, 1, -1, i64::MAX])),
        71..=74 => numbers.truncate(random.index(numbers.len())),
        75..=78 => numbers.truncate(random.index(4)),
        79..=88 => harm_count_number(random, numbers),
        89..=95 => list_telling_flowgates(random, shape, numbers),
        96..=98 => {
            let other = shape.of_counts(any_counts(random));
            numbers.resize(3 + other.fields.len(), 0);
            put_count_numbers(numbers, other.counts);
        }
        _ => {
            let length = random.between(0, 200);
            *numbers = (0..length).map(|_| random.bits() as i64).collect();
        }
    }
}

fn put_count_numbers(numbers: &mut [i64], counts: Counts) {
    let counts = [counts.resources, counts.zones, counts.flowgates];
    for (place, count) in numbers.iter_mut().zip(counts) {
        *place = count as i64;
    }
}

/// The list of a file with a telling number of flowgates. One that is too short
/// for its counts is filled up with 0.
fn list_telling_flowgates(random: &mut Random, shape: &Shape, numbers: &mut Vec<i64>) {
    let wanted = telling_shape(random, shape);
    numbers.resize(3 + shape.fields.len(), 0);
    let fields = layout::with_flowgates(&shape.fields, &numbers[3..], &wanted.fields);
    numbers.truncate(3);
    numbers.extend(fields);
    put_count_numbers(numbers, wanted.counts);
}

/// As for a file, and numbers past what the field's bytes can hold.
fn telling_number_of_64_bits(random: &mut Random, field: &Field) -> i64 {
    let (lowest, highest) = field.width.ends();
    match random.between(0, 15) {
        0 => lowest - 1,
        1 => highest + 1,
        2 => i64::MIN,
        3 => i64::MAX,
        // The low bytes are a sound number; the high ones are not empty.
        4 => field.least + random.pick(&[1 << 16, 1 << 32, 1 << 40, -(1 << 32)]),
        5 => random.bits() as i64,
        _ => telling_number(random, field),
    }
}

fn harm_count_number(random: &mut Random, numbers: &mut [i64]) {
    let which = random.index(3);
    if let Some(count) = numbers.get_mut(which) {
        *count = match random.between(0, 9) {
            0 => 0,
            1 => -1,
            2 | 3 => telling_count(random, which) as i64,
            4 => count.wrapping_sub(1),
            5 => count.wrapping_add(1),
            6 => count.wrapping_add(256),
            7 => count.wrapping_add(1 << 32),
            8 => i64::MIN,
            _ => i64::MAX,
        };
    }
}
