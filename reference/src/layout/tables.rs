//! The fields of both files as tables, a table for each part. A line stands in the
//! version that is beside it and in all later ones; a version's file is what its
//! lines make.

use super::{Counts, Field, Part, Version, Width, CURVE_STEPS, ENERGY_STEPS};

const ONE: Version = Version::ONE;

const POWER: i64 = 2_000_000;
const DEMAND: i64 = 128_000_000;
const MARKET_POWER: i64 = 8_000_000;
const RAMP: i64 = 400_000;
const FLOWGATE_LIMIT: i64 = 20_000_000;
const OFFER_PRICE: i64 = 400_000;
const ROW_PRICE: i64 = 400_000_000;

/// Which numbers a field may hold.
#[derive(Clone, Copy, PartialEq, Eq)]
enum Range {
    Within(i64, i64),
    /// A zone of the case.
    Zone,
    /// A certificate's quantity: its bound hangs on the case, so the field itself
    /// may hold anything that fits.
    Quantity,
}

#[derive(Clone, Copy)]
struct Entry {
    name: &'static str,
    width: Width,
    range: Range,
}

impl Entry {
    fn field(self, part: Part, index: usize, counts: Counts) -> Field {
        let Entry { name, width, range } = self;
        let (least, most) = match range {
            Range::Within(least, most) => (least, most),
            Range::Zone => (1, counts.zones as i64),
            Range::Quantity => width.ends(),
        };
        let quantity = range == Range::Quantity;
        Field { name, part, of: 0, index, width, least, most, quantity }
    }
}

/// How often a line stands in its part.
#[derive(Clone, Copy)]
enum Times {
    Fixed(usize),
    EachResource,
}

/// A line of a table: a field, or the width and the price of a step.
struct Line {
    entry: Entry,
    price: Option<Entry>,
    times: Times,
}

const fn line(name: &'static str, width: Width, range: Range) -> Line {
    Line { entry: Entry { name, width, range }, price: None, times: Times::Fixed(1) }
}

const fn field(name: &'static str, width: Width, least: i64, most: i64) -> Line {
    line(name, width, Range::Within(least, most))
}

const fn power(name: &'static str) -> Line {
    field(name, Width::U32, 0, POWER)
}

const fn market_power(name: &'static str) -> Line {
    field(name, Width::U32, 0, MARKET_POWER)
}

const fn ramp(name: &'static str) -> Line {
    field(name, Width::U32, 0, RAMP)
}

const fn multiplier(name: &'static str) -> Line {
    field(name, Width::U16, 1, 5000)
}

const fn minutes(name: &'static str) -> Line {
    field(name, Width::U16, 1, 60)
}

const fn share(name: &'static str) -> Line {
    field(name, Width::U16, 0, 1000)
}

const fn offer_price(name: &'static str) -> Line {
    field(name, Width::U32, 0, OFFER_PRICE)
}

const fn row_price(name: &'static str) -> Line {
    field(name, Width::U32, 0, ROW_PRICE)
}

const fn quantity(name: &'static str) -> Line {
    line(name, Width::U32, Range::Quantity)
}

const fn steps(times: usize, width: Line, price: Line) -> Line {
    Line { price: Some(price.entry), times: Times::Fixed(times), ..width }
}

const fn curve(width: &'static str, price: &'static str) -> Line {
    steps(CURVE_STEPS, market_power(width), offer_price(price))
}

const fn offer(width: &'static str, price: &'static str) -> Line {
    steps(ENERGY_STEPS, power(width), field(price, Width::I32, -OFFER_PRICE, OFFER_PRICE))
}

const fn each_resource(line: Line) -> Line {
    Line { times: Times::EachResource, ..line }
}

/// The lines of a part, each with the version since which it stands.
type Lines = [(Version, Line)];

/// A file: its parts in order, each with its lines.
type Table = [(Part, &'static Lines)];

const CASE: &Table = &[
    (Part::Head, CASE_HEAD),
    (Part::Zone, CASE_ZONE),
    (Part::Resource, CASE_RESOURCE),
    (Part::Flowgate, CASE_FLOWGATE),
];

const CASE_HEAD: &Lines = &[
    (ONE, field("demand", Width::U32, 0, DEMAND)),
    (ONE, multiplier("contingency multiplier")),
    (ONE, minutes("contingency minutes")),
    (ONE, multiplier("regulating multiplier")),
    (ONE, minutes("regulating minutes")),
    (ONE, multiplier("short-term multiplier")),
    (ONE, minutes("short-term minutes")),
    (ONE, share("regulating share")),
    (ONE, share("contingency share")),
    (ONE, share("short-term share")),
    (ONE, market_power("regulating market requirement")),
    (ONE, market_power("contingency market requirement")),
    (ONE, market_power("short-term market requirement")),
    (ONE, curve("operating curve width", "operating curve price")),
    (ONE, curve("regulating-plus-spinning curve width", "regulating-plus-spinning curve price")),
    (ONE, curve("regulating curve width", "regulating curve price")),
    (ONE, curve("short-term curve width", "short-term curve price")),
];

const CASE_ZONE: &Lines = &[
    (ONE, power("operating requirement")),
    (ONE, power("regulating-plus-spinning requirement")),
    (ONE, power("regulating requirement")),
    (ONE, power("short-term requirement")),
];

const CASE_RESOURCE: &Lines = &[
    (ONE, field("kind", Width::U8, 1, 3)),
    (ONE, line("zone", Width::U8, Range::Zone)),
    (ONE, field("breaker", Width::U8, 0, 1)),
    (ONE, field("status", Width::U8, 0, 15)),
    (ONE, field("minutes since trip", Width::U8, 0, 255)),
    (ONE, field("flags", Width::U8, 0, 255)),
    (ONE, field("estimated output", Width::I32, -POWER, POWER)),
    (ONE, power("economic minimum")),
    (ONE, power("economic maximum")),
    (ONE, power("regulating minimum")),
    (ONE, power("regulating maximum")),
    (ONE, power("emergency minimum")),
    (ONE, power("emergency maximum")),
    (ONE, ramp("ramp up")),
    (ONE, ramp("ramp down")),
    (ONE, ramp("ramp rate")),
    (ONE, power("initial energy")),
    (ONE, power("off-line response limit")),
    (ONE, power("off-line short-term limit")),
    (ONE, power("self-schedule")),
    (ONE, offer_price("regulating price")),
    (ONE, offer_price("contingency price")),
    (ONE, offer_price("off-line short-term price")),
    (ONE, offer("energy width", "energy price")),
];

const CASE_FLOWGATE: &Lines = &[
    (ONE, field("flowgate limit", Width::I32, -FLOWGATE_LIMIT, FLOWGATE_LIMIT)),
    (ONE, each_resource(field("shift factor", Width::I16, -1000, 1000))),
];

const CERTIFICATE: &Table = &[
    (Part::Head, CERTIFICATE_HEAD),
    (Part::Zone, CERTIFICATE_ZONE),
    (Part::Flowgate, CERTIFICATE_FLOWGATE),
    (Part::Resource, CERTIFICATE_RESOURCE),
];

const CERTIFICATE_HEAD: &Lines = &[
    (ONE, quantity("cleared operating")),
    (ONE, quantity("cleared regulating-plus-spinning")),
    (ONE, quantity("cleared regulating")),
    (ONE, quantity("cleared short-term")),
    (ONE, field("energy row price", Width::I32, -ROW_PRICE, ROW_PRICE)),
    (ONE, row_price("operating row price")),
    (ONE, row_price("regulating-plus-spinning row price")),
    (ONE, row_price("regulating row price")),
    (ONE, row_price("short-term row price")),
];

const CERTIFICATE_ZONE: &Lines = &[
    (ONE, row_price("operating row price")),
    (ONE, row_price("regulating-plus-spinning row price")),
    (ONE, row_price("regulating row price")),
    (ONE, row_price("short-term row price")),
];

const CERTIFICATE_FLOWGATE: &Lines = &[(ONE, offer_price("flowgate price"))];

const CERTIFICATE_RESOURCE: &Lines = &[
    (ONE, quantity("energy")),
    (ONE, quantity("regulating")),
    (ONE, quantity("contingency")),
    (ONE, quantity("on-line short-term")),
    (ONE, quantity("off-line short-term")),
    (ONE, row_price("price of energy, regulating and contingency within MAX")),
    (ONE, row_price("price of energy and short-term within MAX")),
    (ONE, row_price("price of energy less regulating above MIN")),
    (ONE, row_price("price of energy within HI")),
    (ONE, row_price("price of energy above LO")),
];

/// The fields of a case after its counts, in the order of the file.
pub fn case_fields(version: Version, counts: Counts) -> Vec<Field> {
    fields(CASE, version, counts)
}

/// The fields of a certificate after its counts, in the order of the file.
pub fn certificate_fields(version: Version, counts: Counts) -> Vec<Field> {
    fields(CERTIFICATE, version, counts)
}

fn fields(table: &Table, version: Version, counts: Counts) -> Vec<Field> {
    let mut fields = Vec::new();
    for (part, lines) in table {
        let of_one = fields_of_one(*part, lines, version, counts);
        let owners = part.owners(counts);
        fields.reserve(of_one.len() * owners.len());
        for of in owners {
            fields.extend(of_one.iter().map(|field| Field { of, ..*field }));
        }
    }
    fields
}

/// The fields of one zone, resource or flowgate, whichever it is.
fn fields_of_one(part: Part, lines: &Lines, version: Version, counts: Counts) -> Vec<Field> {
    let mut fields = Vec::new();
    for (_, line) in lines.iter().filter(|(since, _)| *since <= version) {
        let times = match line.times {
            Times::Fixed(times) => times,
            Times::EachResource => counts.resources,
        };
        for index in 0..times {
            fields.push(line.entry.field(part, index, counts));
            if let Some(price) = line.price {
                fields.push(price.field(part, index, counts));
            }
        }
    }
    fields
}
