//! A case from the numbers of its fields, and back. A number is found by its
//! field's name; what a version does not have reads as 0 and is not written.

use crate::case::{Case, Curve, Flowgate, Kind, Limits, Reserve, Resource, Step};
use crate::layout::{self, Counts, Field, Part, Record, Version, CURVES};
use crate::units::Kw;

impl Case {
    /// The case whose fields, counts left out, hold these numbers.
    pub fn from_numbers(version: Version, counts: Counts, numbers: &[i64]) -> Case {
        let fields = layout::case_fields(version, counts);
        let records = layout::records(&fields, numbers);
        let of = |part| records.iter().filter(move |record| record.is_of(part)).copied();
        let head = of(Part::Head).next().unwrap_or_default();
        Case {
            version,
            counts,
            demand: head.number("demand"),
            contingency: read_reserve(head, CONTINGENCY),
            regulating: read_reserve(head, REGULATING),
            short_term: read_reserve(head, SHORT_TERM),
            curves: Curve::ALL.map(|curve| read_steps(head, step_names(curve))),
            zones: of(Part::Zone).map(read_zone).collect(),
            resources: of(Part::Resource).map(read_resource).collect(),
            flowgates: of(Part::Flowgate).map(read_flowgate).collect(),
        }
    }

    /// The numbers of its fields, counts left out, in the order of the file.
    pub fn numbers(&self) -> Vec<i64> {
        let fields = layout::case_fields(self.version, self.counts);
        fields.iter().map(|field| self.number(field).unwrap_or(0)).collect()
    }

    /// The number of one of its fields; None for what it does not have.
    fn number(&self, field: &Field) -> Option<i64> {
        match field.part {
            Part::Head => self.head_number(field),
            Part::Zone => zone_number(self.zones.get(field.of - 1)?, field),
            Part::Resource => resource_number(self.resources.get(field.of - 1)?, field),
            Part::Flowgate => flowgate_number(self.flowgates.get(field.of - 1)?, field),
        }
    }

    fn head_number(&self, field: &Field) -> Option<i64> {
        let curve_number =
            |curve: Curve| step_number(&self.curves[curve as usize], step_names(curve), field);
        match field.name {
            "demand" => Some(self.demand),
            _ => reserve_number(&self.contingency, CONTINGENCY, field)
                .or_else(|| reserve_number(&self.regulating, REGULATING, field))
                .or_else(|| reserve_number(&self.short_term, SHORT_TERM, field))
                .or_else(|| Curve::ALL.into_iter().find_map(curve_number)),
        }
    }
}

/// The names of a reserve's multiplier, minutes, share and requirement.
type ReserveNames = [&'static str; 4];

const CONTINGENCY: ReserveNames = [
    "contingency multiplier",
    "contingency minutes",
    "contingency share",
    "contingency market requirement",
];
const REGULATING: ReserveNames = [
    "regulating multiplier",
    "regulating minutes",
    "regulating share",
    "regulating market requirement",
];
const SHORT_TERM: ReserveNames = [
    "short-term multiplier",
    "short-term minutes",
    "short-term share",
    "short-term market requirement",
];

fn read_reserve(head: Record, names: ReserveNames) -> Reserve {
    let [multiplier, minutes, share, requirement] = names.map(|name| head.number(name));
    Reserve { multiplier, minutes, share, requirement }
}

fn reserve_number(reserve: &Reserve, names: ReserveNames, field: &Field) -> Option<i64> {
    let Reserve { multiplier, minutes, share, requirement } = *reserve;
    let at = names.iter().position(|name| *name == field.name)?;
    Some([multiplier, minutes, share, requirement][at])
}

/// The names of a step's width and price.
type StepNames = [&'static str; 2];

const ENERGY: StepNames = ["energy width", "energy price"];

fn step_names(curve: Curve) -> StepNames {
    match curve {
        Curve::Operating => ["operating curve width", "operating curve price"],
        Curve::RegulatingPlusSpinning => {
            ["regulating-plus-spinning curve width", "regulating-plus-spinning curve price"]
        }
        Curve::Regulating => ["regulating curve width", "regulating curve price"],
        Curve::ShortTerm => ["short-term curve width", "short-term curve price"],
    }
}

fn read_steps<const N: usize>(record: Record, names: StepNames) -> [Step; N] {
    let [widths, prices] = names.map(|name| record.all(name));
    let mut steps = [Step::default(); N];
    for (step, (width, price)) in steps.iter_mut().zip(widths.zip(prices)) {
        *step = Step { width, price };
    }
    steps
}

fn step_number(steps: &[Step], names: StepNames, field: &Field) -> Option<i64> {
    let at = names.iter().position(|name| *name == field.name)?;
    let step = steps.get(field.index)?;
    Some([step.width, step.price][at])
}

/// The names of a zone's requirements.
const REQUIREMENTS: [(Curve, &str); 4] = [
    (Curve::Operating, "operating requirement"),
    (Curve::RegulatingPlusSpinning, "regulating-plus-spinning requirement"),
    (Curve::Regulating, "regulating requirement"),
    (Curve::ShortTerm, "short-term requirement"),
];

fn read_zone(record: Record) -> [Kw; CURVES] {
    let mut requirements = [0; CURVES];
    for (curve, name) in REQUIREMENTS {
        requirements[curve as usize] = record.number(name);
    }
    requirements
}

fn zone_number(requirements: &[Kw; CURVES], field: &Field) -> Option<i64> {
    let (curve, _) = REQUIREMENTS.into_iter().find(|(_, name)| *name == field.name)?;
    Some(requirements[curve as usize])
}

fn read_resource(record: Record) -> Resource {
    let number = |name| record.number(name);
    let limits = |minimum, maximum| Limits { minimum: number(minimum), maximum: number(maximum) };
    Resource {
        kind: Kind::from_number(number("kind")),
        zone: usize::try_from(number("zone")).unwrap_or(0),
        breaker_closed: number("breaker") == 1,
        status: number("status"),
        minutes_since_trip: number("minutes since trip"),
        flags: number("flags"),
        output: number("estimated output"),
        economic: limits("economic minimum", "economic maximum"),
        regulating: limits("regulating minimum", "regulating maximum"),
        emergency: limits("emergency minimum", "emergency maximum"),
        ramp_up: number("ramp up"),
        ramp_down: number("ramp down"),
        ramp_rate: number("ramp rate"),
        initial: number("initial energy"),
        offline_response: number("off-line response limit"),
        offline_short_term: number("off-line short-term limit"),
        self_schedule: number("self-schedule"),
        regulating_price: number("regulating price"),
        contingency_price: number("contingency price"),
        offline_short_term_price: number("off-line short-term price"),
        steps: read_steps(record, ENERGY),
    }
}

fn resource_number(resource: &Resource, field: &Field) -> Option<i64> {
    Some(match field.name {
        "kind" => resource.kind.number(),
        "zone" => resource.zone as i64,
        "breaker" => i64::from(resource.breaker_closed),
        "status" => resource.status,
        "minutes since trip" => resource.minutes_since_trip,
        "flags" => resource.flags,
        "estimated output" => resource.output,
        "economic minimum" => resource.economic.minimum,
        "economic maximum" => resource.economic.maximum,
        "regulating minimum" => resource.regulating.minimum,
        "regulating maximum" => resource.regulating.maximum,
        "emergency minimum" => resource.emergency.minimum,
        "emergency maximum" => resource.emergency.maximum,
        "ramp up" => resource.ramp_up,
        "ramp down" => resource.ramp_down,
        "ramp rate" => resource.ramp_rate,
        "initial energy" => resource.initial,
        "off-line response limit" => resource.offline_response,
        "off-line short-term limit" => resource.offline_short_term,
        "self-schedule" => resource.self_schedule,
        "regulating price" => resource.regulating_price,
        "contingency price" => resource.contingency_price,
        "off-line short-term price" => resource.offline_short_term_price,
        _ => return step_number(&resource.steps, ENERGY, field),
    })
}

fn read_flowgate(record: Record) -> Flowgate {
    Flowgate {
        limit: record.number("flowgate limit"),
        factors: record.all("shift factor").collect(),
    }
}

fn flowgate_number(flowgate: &Flowgate, field: &Field) -> Option<i64> {
    match field.name {
        "flowgate limit" => Some(flowgate.limit),
        "shift factor" => flowgate.factors.get(field.index).copied(),
        _ => None,
    }
}
