//! What is settled about a resource before any row: whether it is on-line,
//! off-line or tripped, its limits for the interval, and the upper bounds of its
//! quantities.

use crate::case::{flag, status, Case, Kind, Limits, Reserve, Resource};
use crate::layout::Version;
use crate::units::Kw;

/// The quantities of a resource, in the order of the certificate.
#[derive(Clone, Copy, Debug, PartialEq, Eq)]
pub enum Product {
    Energy,
    Regulating,
    Contingency,
    OnlineShortTerm,
    OfflineShortTerm,
}

/// How many products there are, in all versions together.
pub const PRODUCTS: usize = 5;

impl Product {
    pub const ALL: [Product; PRODUCTS] = [
        Product::Energy,
        Product::Regulating,
        Product::Contingency,
        Product::OnlineShortTerm,
        Product::OfflineShortTerm,
    ];

    /// Those that the program prints, in every version.
    pub const PRINTED: [Product; 5] = [
        Product::Energy,
        Product::Regulating,
        Product::Contingency,
        Product::OnlineShortTerm,
        Product::OfflineShortTerm,
    ];

    /// The first version that has it; all later ones do.
    fn since(self) -> Version {
        match self {
            Product::Energy
            | Product::Regulating
            | Product::Contingency
            | Product::OnlineShortTerm
            | Product::OfflineShortTerm => Version::ONE,
        }
    }

    /// Those of a version, in the same order.
    pub fn of(version: Version) -> impl Iterator<Item = Product> {
        Product::ALL.into_iter().filter(move |product| product.since() <= version)
    }

    /// Those that are priced and charged as they are; energy is by its steps.
    pub fn beside_energy(version: Version) -> impl Iterator<Item = Product> {
        Product::of(version).filter(|product| *product != Product::Energy)
    }
}

/// What the on-line step of the paper tells apart; 'tripped' is of request 2 of
/// document 02.
#[derive(Clone, Copy, Debug, PartialEq, Eq)]
pub enum OperatingState {
    Online,
    Offline,
    Tripped,
}

#[derive(Clone, Copy, Debug, PartialEq, Eq)]
pub struct Standing {
    pub state: OperatingState,
    /// MAX, MIN, HI and LO of the paper.
    pub maximum: Kw,
    pub minimum: Kw,
    pub high: Kw,
    pub low: Kw,
    /// Whether its contingency reserve counts as spinning.
    pub spinning: bool,
    /// Upper bounds, in the order of `Product::ALL`.
    pub bounds: [Kw; PRODUCTS],
}

impl Standing {
    /// Off-line and tripped alike are not.
    pub fn is_online(&self) -> bool {
        self.state == OperatingState::Online
    }

    pub fn bound(&self, product: Product) -> Kw {
        self.bounds[product as usize]
    }
}

const INTERVAL_MINUTES: i64 = 5;
const LEAST_CONVENTIONAL_OUTPUT: Kw = 500;
const MINUTES_HELD_AFTER_TRIP: i64 = 15;

pub fn standings(case: &Case) -> Vec<Standing> {
    case.resources.iter().map(|resource| standing(case, resource)).collect()
}

pub fn standing(case: &Case, resource: &Resource) -> Standing {
    match operating_state(resource) {
        OperatingState::Online => online_standing(case, resource),
        OperatingState::Offline => offline_standing(case, resource),
        OperatingState::Tripped => tripped_standing(case, resource),
    }
}

/// A recent trip is looked at before breaker and output (02, request 2).
pub fn operating_state(resource: &Resource) -> OperatingState {
    if has_tripped(resource) {
        OperatingState::Tripped
    } else if is_running(resource) {
        OperatingState::Online
    } else {
        OperatingState::Offline
    }
}

/// Trips of the other kinds do not count.
fn has_tripped(resource: &Resource) -> bool {
    resource.kind == Kind::Conventional && resource.minutes_since_trip <= MINUTES_HELD_AFTER_TRIP
}

/// What the paper asks of an on-line resource of each kind, trips apart.
fn is_running(resource: &Resource) -> bool {
    resource.breaker_closed
        && match resource.kind {
            Kind::Conventional => resource.output.abs() >= LEAST_CONVENTIONAL_OUTPUT,
            Kind::Intermittent => resource.has_status(status::COMMITTED) && resource.output > 0,
            Kind::ExternalAsynchronous => {
                resource.has_status(status::AVAILABLE)
                    && resource.has_status(status::ACTIVE_SCHEDULE)
            }
        }
}

/// What a resource can ramp within a reserve's minutes, rounded down; the
/// multiplier divides last.
pub fn ramp(rate: Kw, reserve: &Reserve) -> Kw {
    (rate * reserve.minutes * 1000).checked_div(reserve.multiplier).unwrap_or(0)
}

/// The largest share of a reserve's requirement, rounded down.
pub fn share(reserve: &Reserve) -> Kw {
    reserve.share * reserve.requirement / 1000
}

fn online_standing(case: &Case, resource: &Resource) -> Standing {
    let maximum = limits_in_force(resource, flag::EMERGENCY_MAXIMUM).maximum;
    let minimum = limits_in_force(resource, flag::EMERGENCY_MINIMUM).minimum;
    let high = resource.initial + INTERVAL_MINUTES * resource.ramp_up;
    Standing {
        state: OperatingState::Online,
        maximum,
        minimum,
        high,
        low: online_low(resource, high, maximum),
        spinning: resource.has_flag(flag::SPINNING),
        bounds: Product::ALL.map(|product| online_bound(case, resource, maximum, product)),
    }
}

fn online_bound(case: &Case, resource: &Resource, maximum: Kw, product: Product) -> Kw {
    let supplemental = resource.has_status(status::ONLINE_SUPPLEMENTAL);
    let (offered, reserve) = match product {
        Product::Energy => return resource.steps.iter().map(|step| step.width).sum(),
        Product::Regulating => (resource.has_flag(flag::REGULATING), &case.regulating),
        Product::Contingency => {
            (resource.has_flag(flag::SPINNING) || supplemental, &case.contingency)
        }
        Product::OnlineShortTerm => (resource.has_flag(flag::ONLINE_SHORT_TERM), &case.short_term),
        Product::OfflineShortTerm => return 0,
    };
    if offered {
        ramp(resource.ramp_rate, reserve).min(share(reserve)).min(maximum)
    } else {
        0
    }
}

/// LO on-line: what the ramp down leaves, at least 0. The paper goes on 'if
/// self-scheduled, the larger of that and the self-schedule'; by request 6 it is
/// the larger of that and the least of HI, MAX and the self-schedule.
fn online_low(resource: &Resource, high: Kw, maximum: Kw) -> Kw {
    let ramped_down = (resource.initial - INTERVAL_MINUTES * resource.ramp_down).max(0);
    if resource.has_flag(flag::SELF_SCHEDULED) {
        ramped_down.max(high.min(maximum).min(resource.self_schedule))
    } else {
        ramped_down
    }
}

/// Emergency limits if that end is released, else regulating ones if the
/// resource regulates, else economic ones.
fn limits_in_force(resource: &Resource, released: i64) -> Limits {
    if resource.has_flag(released) {
        resource.emergency
    } else if resource.has_flag(flag::REGULATING) {
        resource.regulating
    } else {
        resource.economic
    }
}

/// Also what a tripped resource would have if it were off-line.
pub(crate) fn offline_standing(case: &Case, resource: &Resource) -> Standing {
    let most = resource.economic.maximum;
    Standing {
        state: OperatingState::Offline,
        maximum: most,
        minimum: 0,
        high: most,
        low: 0,
        spinning: false,
        bounds: Product::ALL.map(|product| offline_bound(case, resource, product)),
    }
}

fn offline_bound(case: &Case, resource: &Resource, product: Product) -> Kw {
    let (offered, limit) = match product {
        Product::Contingency => (
            resource.has_flag(flag::OFFLINE_SUPPLEMENTAL),
            resource.offline_response.min(share(&case.contingency)),
        ),
        Product::OfflineShortTerm => {
            (resource.has_flag(flag::OFFLINE_SHORT_TERM), resource.offline_short_term)
        }
        Product::Energy | Product::Regulating | Product::OnlineShortTerm => return 0,
    };
    if offered {
        limit.min(resource.economic.maximum)
    } else {
        0
    }
}

/// The limits of an off-line resource, and nothing that it can sell (02,
/// request 2).
fn tripped_standing(case: &Case, resource: &Resource) -> Standing {
    let bounds = [0; PRODUCTS];
    Standing { state: OperatingState::Tripped, bounds, ..offline_standing(case, resource) }
}
