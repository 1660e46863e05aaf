//! A case: what one Dispatch Interval asks and what its resources offer.

use crate::layout::{Counts, Version, CURVES, CURVE_STEPS, ENERGY_STEPS};
use crate::units::{Cents, Kw};

/// A step of an offer or of a demand curve.
#[derive(Clone, Copy, Debug, Default, PartialEq, Eq)]
pub struct Step {
    pub width: Kw,
    pub price: Cents,
}

/// A pair of limits.
#[derive(Clone, Copy, Debug, Default, PartialEq, Eq)]
pub struct Limits {
    pub minimum: Kw,
    pub maximum: Kw,
}

/// The market-wide figures of one reserve product.
#[derive(Clone, Copy, Debug, Default, PartialEq, Eq)]
pub struct Reserve {
    /// Thousandths.
    pub multiplier: i64,
    pub minutes: i64,
    /// The largest share of the requirement that one resource may give, thousandths.
    pub share: i64,
    pub requirement: Kw,
}

/// The reserve curves, in the order of the file. Cleared quantities, zone
/// requirements and the market-wide reserve rows go in the same order.
#[derive(Clone, Copy, Debug, PartialEq, Eq)]
pub enum Curve {
    Operating,
    RegulatingPlusSpinning,
    Regulating,
    ShortTerm,
}

impl Curve {
    pub const ALL: [Curve; CURVES] =
        [Curve::Operating, Curve::RegulatingPlusSpinning, Curve::Regulating, Curve::ShortTerm];

    /// Those that zones have requirements for, in every version.
    pub const OF_ZONES: [Curve; 4] =
        [Curve::Operating, Curve::RegulatingPlusSpinning, Curve::Regulating, Curve::ShortTerm];

    /// The first version that has it; all later ones do.
    fn since(self) -> Version {
        match self {
            Curve::Operating
            | Curve::RegulatingPlusSpinning
            | Curve::Regulating
            | Curve::ShortTerm => Version::ONE,
        }
    }

    /// Those of a version, in the same order.
    pub fn of(version: Version) -> impl Iterator<Item = Curve> {
        Curve::ALL.into_iter().filter(move |curve| curve.since() <= version)
    }
}

#[derive(Clone, Copy, Debug, PartialEq, Eq)]
pub enum Kind {
    Conventional,
    Intermittent,
    ExternalAsynchronous,
}

impl Kind {
    pub(crate) fn from_number(number: i64) -> Kind {
        match number {
            2 => Kind::Intermittent,
            3 => Kind::ExternalAsynchronous,
            _ => Kind::Conventional,
        }
    }

    pub(crate) fn number(self) -> i64 {
        match self {
            Kind::Conventional => 1,
            Kind::Intermittent => 2,
            Kind::ExternalAsynchronous => 3,
        }
    }
}

/// Bits of a resource's status.
pub mod status {
    pub const COMMITTED: i64 = 1;
    pub const AVAILABLE: i64 = 2;
    pub const ACTIVE_SCHEDULE: i64 = 4;
    pub const ONLINE_SUPPLEMENTAL: i64 = 8;
}

/// Bits of a resource's flags.
pub mod flag {
    pub const REGULATING: i64 = 1;
    pub const SPINNING: i64 = 2;
    pub const OFFLINE_SUPPLEMENTAL: i64 = 4;
    pub const OFFLINE_SHORT_TERM: i64 = 8;
    pub const EMERGENCY_MAXIMUM: i64 = 16;
    pub const SELF_SCHEDULED: i64 = 32;
    pub const EMERGENCY_MINIMUM: i64 = 64;
    pub const ONLINE_SHORT_TERM: i64 = 128;
}

#[derive(Clone, Debug, PartialEq, Eq)]
pub struct Resource {
    pub kind: Kind,
    /// From 1.
    pub zone: usize,
    pub breaker_closed: bool,
    pub status: i64,
    /// 255 if it has not tripped.
    pub minutes_since_trip: i64,
    pub flags: i64,
    pub output: Kw,
    pub economic: Limits,
    pub regulating: Limits,
    pub emergency: Limits,
    /// Ramps in kW a minute.
    pub ramp_up: Kw,
    pub ramp_down: Kw,
    pub ramp_rate: Kw,
    pub initial: Kw,
    pub offline_response: Kw,
    pub offline_short_term: Kw,
    pub self_schedule: Kw,
    pub regulating_price: Cents,
    pub contingency_price: Cents,
    pub offline_short_term_price: Cents,
    pub steps: [Step; ENERGY_STEPS],
}

impl Resource {
    pub fn has_status(&self, bit: i64) -> bool {
        self.status & bit != 0
    }

    pub fn has_flag(&self, bit: i64) -> bool {
        self.flags & bit != 0
    }
}

#[derive(Clone, Debug, PartialEq, Eq)]
pub struct Flowgate {
    /// Net of other flows.
    pub limit: Kw,
    /// Shift factors, thousandths, one for each resource.
    pub factors: Vec<i64>,
}

#[derive(Clone, Debug, PartialEq, Eq)]
pub struct Case {
    pub version: Version,
    pub counts: Counts,
    pub demand: Kw,
    pub contingency: Reserve,
    pub regulating: Reserve,
    pub short_term: Reserve,
    /// In the order of `Curve::ALL`; empty where the version has none.
    pub curves: [[Step; CURVE_STEPS]; CURVES],
    /// Each zone's requirements, in the order of `Curve::ALL`; 0 of a curve that is
    /// not of zones.
    pub zones: Vec<[Kw; CURVES]>,
    pub resources: Vec<Resource>,
    pub flowgates: Vec<Flowgate>,
}

impl Case {
    /// The most that can clear on a curve.
    pub fn curve_width(&self, curve: Curve) -> Kw {
        self.curves[curve as usize].iter().map(|step| step.width).sum()
    }
}
