//! Random pairs of a valid case and a certificate accepted for it.
//!
//! A schedule is drawn first and the case is drawn around it, tight against
//! some of its rows and loose against others. So every pair is accepted, of
//! whatever size, without any solver.

use crate::case::{flag, status, Case, Curve, Flowgate, Kind, Limits, Reserve, Resource, Step};
use crate::certificate::Certificate;
use crate::layout::{
    self, Counts, Version, CURVES, CURVE_STEPS, ENERGY_STEPS, MOST_FLOWGATES, MOST_RESOURCES,
    MOST_ZONES,
};
use crate::random::Random;
use crate::rows::{index_of, index_of_cleared, row_names, RowName};
use crate::standing::{
    offline_standing, operating_state, standing, standings, OperatingState, Product, Standing,
    PRODUCTS,
};
use crate::units::{Cents, Kw};

/// A case and a certificate for it, with their files.
#[derive(Clone, Debug)]
pub struct Pair {
    pub case: Case,
    pub certificate: Certificate,
}

impl Pair {
    pub fn case_file(&self) -> Vec<u8> {
        let Case { version, counts, .. } = self.case;
        let fields = layout::case_fields(version, counts);
        layout::write_fields(version, counts, &self.case.numbers(), &fields)
    }

    pub fn certificate_file(&self) -> Vec<u8> {
        let Certificate { version, counts, .. } = self.certificate;
        let fields = layout::certificate_fields(version, counts);
        layout::write_fields(version, counts, &self.certificate.numbers(), &fields)
    }

    /// The same pair with another number of flowgates, for which `layout` says
    /// what they are. It is accepted if that many are allowed.
    pub fn with_flowgates(&self, flowgates: usize) -> Pair {
        let own = self.case.counts;
        let counts = Counts { flowgates, ..own };
        let numbers = |of: layout::FieldsOf, version: Version, numbers: &[i64]| {
            layout::with_flowgates(&of(version, own), numbers, &of(version, counts))
        };
        let (version, other) = (self.case.version, self.certificate.version);
        let case = numbers(layout::case_fields, version, &self.case.numbers());
        let certificate = numbers(layout::certificate_fields, other, &self.certificate.numbers());
        Pair {
            case: Case::from_numbers(version, counts, &case),
            certificate: Certificate::from_numbers(other, counts, &certificate),
        }
    }
}

/// How large the figures of a case may become, and how often they stand at
/// the end of what is allowed them.
#[derive(Clone, Copy, Debug, PartialEq, Eq)]
pub struct Scale {
    /// The largest limit of a resource.
    pub power: Kw,
    /// The widest step of a demand curve, and how many it may have.
    pub curve_width: Kw,
    pub curve_steps: usize,
    pub ramp: Kw,
    pub price: Cents,
    /// The chance, in percent, that a figure is drawn at an end.
    pub edges: i64,
}

impl Scale {
    /// Up to the ends of every range.
    pub const FULL: Scale = Scale {
        power: 2_000_000,
        curve_width: 8_000_000,
        curve_steps: CURVE_STEPS,
        ramp: 400_000,
        price: 400_000,
        edges: 15,
    };
    /// Power stations of a common size.
    pub const COMMON: Scale =
        Scale { power: 400_000, curve_width: 600_000, ramp: 8_000, price: 9_000, ..Scale::FULL };
    /// A handful of kW, so that figures meet and edges are hit often.
    pub const SMALL: Scale = Scale { power: 60, curve_width: 40, ramp: 6, price: 9, ..Scale::FULL };
    /// So few kW that every schedule can be written down.
    pub const TINY: Scale =
        Scale { power: 3, curve_width: 2, curve_steps: 1, ramp: 1, price: 9, edges: 15 };

    /// From `least` to `most`, now and then one of the two.
    fn draw(self, random: &mut Random, least: i64, most: i64) -> i64 {
        if random.percent(self.edges) {
            random.pick(&[least, most.max(least)])
        } else {
            random.between(least, most)
        }
    }
}

/// Counts of every size, the ends of their ranges among them.
pub fn random_counts(random: &mut Random) -> Counts {
    let (resources, zones, flowgates) = match random.between(0, 3) {
        0 => (4, 2, 2),
        1 => (12, 4, 6),
        _ => (MOST_RESOURCES, MOST_ZONES, MOST_FLOWGATES),
    };
    Counts {
        resources: random.edgy(1, resources as i64) as usize,
        zones: random.edgy(1, zones as i64) as usize,
        flowgates: random.edgy(0, flowgates as i64) as usize,
    }
}

/// An accepted pair of any version, size and scale.
pub fn random_pair(random: &mut Random) -> Pair {
    let version = random.pick(&Version::ALL);
    let counts = random_counts(random);
    varied_pair(random, version, counts)
}

/// An accepted pair as `pair_of_counts` draws it, with some self-schedules out
/// of reach and more resources that tripped 15 minutes ago or about then. These
/// are drawn aside: what is drawn next is the same without them.
pub fn varied_pair(random: &mut Random, version: Version, counts: Counts) -> Pair {
    let mut pair = drawn_pair_of_counts(random, version, counts);
    let mut aside = Random::new(random.clone().bits());
    lift_self_schedules(&mut aside, &mut pair);
    move_trips(&mut aside, &mut pair.case);
    withdraw_tripped(&mut pair);
    pair
}

/// Lifts self-schedules above HI, above MAX or above both. They yield to the
/// lesser of the two (request 6), so it is done where e already stands at that.
fn lift_self_schedules(random: &mut Random, pair: &mut Pair) {
    const MOST: Kw = 2_000_000;
    for (index, standing) in standings(&pair.case).iter().enumerate() {
        let resource = &mut pair.case.resources[index];
        let lesser = standing.high.min(standing.maximum);
        let larger = standing.high.max(standing.maximum);
        let scheduled = standing.is_online() && resource.has_flag(flag::SELF_SCHEDULED);
        let energy = index_of(pair.certificate.version, index, Product::Energy);
        if scheduled && pair.certificate.amounts[energy] == lesser {
            let own = resource.self_schedule;
            resource.self_schedule =
                random.pick(&[own, lesser + 1, larger, larger + 1, MOST]).min(MOST);
        }
    }
}

/// Moves trips to both sides of the 15 minutes, for every kind of resource. An
/// on-line one stays on-line, since its energy meets demand, and a tripped one
/// stays tripped; an off-line conventional one may become tripped. Off-line offers
/// show whether a trip takes them away.
fn move_trips(random: &mut Random, case: &mut Case) {
    for resource in &mut case.resources {
        let own = resource.minutes_since_trip;
        resource.minutes_since_trip = match (resource.kind, operating_state(resource)) {
            (Kind::Conventional, OperatingState::Online) => random.pick(&[own, own, 16, 17]),
            (Kind::Conventional, OperatingState::Offline) => random.pick(&[own, 0, 14, 15, 16]),
            (Kind::Conventional, OperatingState::Tripped) => random.pick(&[own, 14, 15]),
            _ => random.pick(&[own, 14, 15, 16]),
        };
        if operating_state(resource) != OperatingState::Online && random.percent(50) {
            resource.flags |= flag::OFFLINE_SUPPLEMENTAL | flag::OFFLINE_SHORT_TERM;
        }
    }
}

/// An accepted pair of the given version and size and any scale, now and then
/// filled to the brim.
pub fn pair_of_counts(random: &mut Random, version: Version, counts: Counts) -> Pair {
    let mut pair = drawn_pair_of_counts(random, version, counts);
    withdraw_tripped(&mut pair);
    pair
}

/// An accepted pair of the given version, size and scale.
pub fn pair_of_scale(random: &mut Random, version: Version, counts: Counts, scale: Scale) -> Pair {
    let mut pair = drawn_pair_of_scale(random, version, counts, scale);
    withdraw_tripped(&mut pair);
    pair
}

/// As `pair_of_counts`, but with what tripped resources could give if they were
/// off-line; the pair is accepted only if that is nothing.
fn drawn_pair_of_counts(random: &mut Random, version: Version, counts: Counts) -> Pair {
    if random.percent(4) {
        return full_pair(random, version, counts);
    }
    let scale = random.pick(&[Scale::FULL, Scale::COMMON, Scale::COMMON, Scale::SMALL]);
    let edges = random.pick(&[4, 15, 40]);
    drawn_pair_of_scale(random, version, counts, Scale { edges, ..scale })
}

/// As `pair_of_scale`, but for tripped resources, as in `drawn_pair_of_counts`.
fn drawn_pair_of_scale(
    random: &mut Random,
    version: Version,
    counts: Counts,
    scale: Scale,
) -> Pair {
    let mut case = market(random, version, counts, scale);
    let mut amounts = vec![0; counts.place_count(version)];
    for index in 0..counts.resources {
        let (resource, its_amounts) = resource_with_schedule(random, &case, scale);
        case.resources.push(resource);
        set_amounts(&mut amounts, version, index, its_amounts);
    }
    let energies = energies(&case, &amounts);
    case.demand = energies.iter().sum();
    case.flowgates = (0..counts.flowgates).map(|_| flowgate(random, &energies, scale)).collect();
    set_zone_requirements(random, &mut case, &amounts, scale);
    clear_curves(random, &case, &mut amounts, scale);
    let row_prices = row_prices(random, &case, scale);
    Pair { case, certificate: Certificate { version, counts, amounts, row_prices } }
}

/// A tripped resource sells nothing (02, request 2): takes back what it was
/// given, and lowers what is then no longer provided, which is requirements of
/// zones and cleared quantities. No other figure hangs on who has tripped.
fn withdraw_tripped(pair: &mut Pair) {
    let Pair { case, certificate: Certificate { version, amounts, .. } } = pair;
    for (index, resource) in case.resources.iter().enumerate() {
        if operating_state(resource) == OperatingState::Tripped {
            set_amounts(amounts, *version, index, [0; PRODUCTS]);
        }
    }
    for zone in 1..=case.counts.zones {
        let provided = provided(case, amounts, Some(zone));
        for (requirement, sum) in case.zones[zone - 1].iter_mut().zip(provided) {
            *requirement = sum.min(*requirement);
        }
    }
    let provided = provided(case, amounts, None);
    for curve in Curve::of(*version) {
        let cleared = &mut amounts[index_of_cleared(*version, curve)];
        *cleared = provided[curve as usize].min(*cleared);
    }
}

/// An accepted pair whose figures stand at the far ends of their ranges: all
/// the energy there can be, or all the reserve.
pub fn full_pair(random: &mut Random, version: Version, counts: Counts) -> Pair {
    let scale = Scale { edges: 100, ..Scale::FULL };
    let price = random.pick(&[-scale.price, scale.price]);
    let its_amounts = random.pick(&full_amounts(scale.power));
    let mut case = market(random, version, counts, scale);
    for reserve in [&mut case.contingency, &mut case.regulating, &mut case.short_term] {
        *reserve = Reserve { multiplier: 1, minutes: 60, share: 1000, requirement: 8_000_000 };
    }
    case.resources =
        (0..counts.resources).map(|index| full_resource(index, counts, price)).collect();
    let mut amounts = vec![0; counts.place_count(version)];
    for index in 0..counts.resources {
        set_amounts(&mut amounts, version, index, its_amounts);
    }
    let energy: Kw = energies(&case, &amounts).iter().sum();
    case.demand = energy;
    let against_the_flow =
        Flowgate { limit: -energy.min(20_000_000), factors: vec![-1000; counts.resources] };
    case.flowgates = vec![against_the_flow; counts.flowgates];
    set_zone_requirements(random, &mut case, &amounts, scale);
    clear_curves(random, &case, &mut amounts, scale);
    let row_prices = row_prices(random, &case, scale);
    Pair { case, certificate: Certificate { version, counts, amounts, row_prices } }
}

/// What a resource can give at most: energy, energy and regulating reserve on
/// either side of it, or reserve alone.
fn full_amounts(power: Kw) -> [[Kw; PRODUCTS]; 3] {
    use Product::{Contingency, Energy, OnlineShortTerm, Regulating};
    let half = power / 2;
    [
        amounts_of([(Energy, power)]),
        amounts_of([(Energy, half), (Regulating, half), (OnlineShortTerm, half)]),
        amounts_of([(Contingency, power), (OnlineShortTerm, power)]),
    ]
}

/// A resource's amounts in the order of `Product::ALL`, 0 where none is given.
fn amounts_of<const N: usize>(given: [(Product, Kw); N]) -> [Kw; PRODUCTS] {
    let mut amounts = [0; PRODUCTS];
    for (product, amount) in given {
        amounts[product as usize] = amount;
    }
    amounts
}

/// Puts a resource's amounts in their places, those that the version has.
fn set_amounts(amounts: &mut [Kw], version: Version, resource: usize, its: [Kw; PRODUCTS]) {
    for product in Product::of(version) {
        amounts[index_of(version, resource, product)] = its[product as usize];
    }
}

/// An on-line resource, free to give all its power as energy or as reserve.
fn full_resource(index: usize, counts: Counts, price: Cents) -> Resource {
    let limits = Limits { minimum: 0, maximum: 2_000_000 };
    Resource {
        kind: Kind::Conventional,
        zone: 1 + index % counts.zones,
        breaker_closed: true,
        status: 15,
        minutes_since_trip: 255,
        flags: 255 - flag::SELF_SCHEDULED,
        output: 2_000_000,
        economic: limits,
        regulating: limits,
        emergency: limits,
        ramp_up: 400_000,
        ramp_down: 400_000,
        ramp_rate: 400_000,
        initial: 2_000_000,
        offline_response: 2_000_000,
        offline_short_term: 2_000_000,
        self_schedule: 2_000_000,
        regulating_price: 400_000,
        contingency_price: 400_000,
        offline_short_term_price: 400_000,
        steps: [Step { width: 200_000, price }; ENERGY_STEPS],
    }
}

/// The market-wide figures; resources, zones and flowgates come later.
fn market(random: &mut Random, version: Version, counts: Counts, scale: Scale) -> Case {
    let mut case = Case {
        version,
        counts,
        demand: 0,
        contingency: reserve(random, scale),
        regulating: reserve(random, scale),
        short_term: reserve(random, scale),
        curves: [[Step::default(); CURVE_STEPS]; CURVES],
        zones: vec![[0; CURVES]; counts.zones],
        resources: Vec::new(),
        flowgates: Vec::new(),
    };
    for of in Curve::of(version) {
        case.curves[of as usize] = curve(random, scale);
    }
    case
}

fn reserve(random: &mut Random, scale: Scale) -> Reserve {
    let multiplier = match random.between(0, 4) {
        0 => 1000,
        1 => 700,
        _ => scale.draw(random, 1, 5000),
    };
    Reserve {
        multiplier,
        minutes: scale.draw(random, 1, 60),
        share: scale.draw(random, 0, 1000),
        requirement: scale.draw(random, 0, 4 * scale.curve_width.min(2_000_000)),
    }
}

fn curve(random: &mut Random, scale: Scale) -> [Step; CURVE_STEPS] {
    let used = scale.draw(random, 0, scale.curve_steps as i64) as usize;
    let mut prices: Vec<Cents> = (0..used).map(|_| scale.draw(random, 0, scale.price)).collect();
    prices.sort_unstable_by(|one, other| other.cmp(one));
    let mut steps = [Step::default(); CURVE_STEPS];
    for (step, price) in steps.iter_mut().zip(prices) {
        *step = Step { width: scale.draw(random, 1, scale.curve_width), price };
    }
    steps
}

/// A resource of a case whose market-wide figures stand, and quantities that
/// keep its own rows; those of a tripped one are an off-line one's.
fn resource_with_schedule(
    random: &mut Random,
    case: &Case,
    scale: Scale,
) -> (Resource, [Kw; PRODUCTS]) {
    let mut resource = loose_resource(random, case.counts, scale);
    if operating_state(&resource) != OperatingState::Online {
        resource.steps = energy_steps(random, 0, scale);
        let standing = offline_standing(case, &resource);
        return (resource, offline_amounts(random, &standing, scale));
    }
    let mut before = standing(case, &resource);
    if before.minimum > before.maximum {
        drop_minima(&mut resource, before.maximum);
        before = standing(case, &resource);
    }
    let energy = scale.draw(random, before.minimum, before.maximum);
    resource.steps = energy_steps(random, energy, scale);
    let lowest = (energy - 5 * resource.ramp_up).max(0);
    let highest = (energy + 5 * resource.ramp_down).min(2_000_000);
    resource.initial = scale.draw(random, lowest, highest);
    if resource.has_flag(flag::SELF_SCHEDULED) {
        resource.self_schedule = scale.draw(random, 0, energy);
    }
    let standing = standing(case, &resource);
    let amounts = online_amounts(random, &standing, energy, scale);
    (resource, amounts)
}

/// MIN and MAX may come from different pairs of limits; where MIN would stand
/// above MAX no schedule exists, so every minimum gives way.
fn drop_minima(resource: &mut Resource, most: Kw) {
    for limits in [&mut resource.economic, &mut resource.regulating, &mut resource.emergency] {
        limits.minimum = limits.minimum.min(most);
    }
}

/// A resource whose fields are in range, each pair of limits in order.
fn loose_resource(random: &mut Random, counts: Counts, scale: Scale) -> Resource {
    Resource {
        kind: random.pick(&[
            Kind::Conventional,
            Kind::Conventional,
            Kind::Intermittent,
            Kind::ExternalAsynchronous,
        ]),
        zone: scale.draw(random, 1, counts.zones as i64) as usize,
        breaker_closed: random.percent(85),
        status: status_bits(random),
        minutes_since_trip: random.pick(&[255, 255, 255, 255, 255, 0, 15, 16, 254]),
        flags: random.between(0, 255),
        output: output(random, scale),
        economic: limits(random, scale),
        regulating: limits(random, scale),
        emergency: limits(random, scale),
        ramp_up: scale.draw(random, 0, scale.ramp),
        ramp_down: scale.draw(random, 0, scale.ramp),
        ramp_rate: scale.draw(random, 0, scale.ramp),
        initial: scale.draw(random, 0, scale.power),
        offline_response: scale.draw(random, 0, scale.power),
        offline_short_term: scale.draw(random, 0, scale.power),
        self_schedule: scale.draw(random, 0, scale.power),
        regulating_price: scale.draw(random, 0, scale.price),
        contingency_price: scale.draw(random, 0, scale.price),
        offline_short_term_price: scale.draw(random, 0, scale.price),
        steps: [Step::default(); ENERGY_STEPS],
    }
}

/// Any status, with the bits that bring a resource on-line more often set.
fn status_bits(random: &mut Random) -> i64 {
    let likely = status::COMMITTED | status::AVAILABLE | status::ACTIVE_SCHEDULE;
    let bits = random.between(0, 15);
    if random.percent(60) {
        bits | likely
    } else {
        bits
    }
}

fn output(random: &mut Random, scale: Scale) -> Kw {
    match random.between(0, 9) {
        0 => random.pick(&[-2_000_000, 2_000_000]),
        1 => random.pick(&[-501, -500, -499, -1, 0, 1, 499, 500, 501]),
        2 => -random.between(0, scale.power),
        _ => 500 + random.between(0, scale.power.min(1_999_500)),
    }
}

fn limits(random: &mut Random, scale: Scale) -> Limits {
    let maximum = scale.draw(random, 0, scale.power);
    let minimum = match random.between(0, 2) {
        0 => 0,
        1 => random.between(0, maximum / 3),
        _ => scale.draw(random, 0, maximum),
    };
    Limits { minimum, maximum }
}

/// An offer of at least `energy` kW, its prices never falling.
fn energy_steps(random: &mut Random, energy: Kw, scale: Scale) -> [Step; ENERGY_STEPS] {
    let total = match random.between(0, 3) {
        0 => energy,
        1 => 2_000_000.min(energy + random.between(0, scale.power.min(20))),
        _ => scale.draw(random, energy, scale.power.max(energy)),
    };
    let used = random.between(1, ENERGY_STEPS as i64).min(total);
    let mut cuts: Vec<Kw> = (1..used).map(|_| random.between(1, (total - 1).max(1))).collect();
    cuts.extend([0, total]);
    cuts.sort_unstable();
    cuts.dedup();
    let widths: Vec<Kw> = cuts.windows(2).map(|pair| pair[1] - pair[0]).collect();
    let mut prices: Vec<Cents> = widths.iter().map(|_| energy_price(random, scale)).collect();
    prices.sort_unstable();
    let mut steps = [Step::default(); ENERGY_STEPS];
    for ((step, width), price) in steps.iter_mut().zip(widths).zip(prices) {
        *step = Step { width, price };
    }
    steps
}

fn energy_price(random: &mut Random, scale: Scale) -> Cents {
    if random.percent(12) {
        scale.draw(random, -scale.price, scale.price)
    } else {
        random.between(scale.price / 5, scale.price)
    }
}

fn offline_amounts(random: &mut Random, standing: &Standing, scale: Scale) -> [Kw; PRODUCTS] {
    let given = [Product::Contingency, Product::OfflineShortTerm];
    amounts_of(given.map(|product| (product, scale.draw(random, 0, standing.bound(product)))))
}

fn online_amounts(
    random: &mut Random,
    standing: &Standing,
    energy: Kw,
    scale: Scale,
) -> [Kw; PRODUCTS] {
    use Product::{Contingency, Energy, OnlineShortTerm, Regulating};
    let above = standing.maximum - energy;
    let below = energy - standing.minimum;
    let mut draw = |product, most: Kw| scale.draw(random, 0, standing.bound(product).min(most));
    let regulating = draw(Regulating, above.min(below));
    let contingency = draw(Contingency, above - regulating);
    let short_term = draw(OnlineShortTerm, above);
    amounts_of([
        (Energy, energy),
        (Regulating, regulating),
        (Contingency, contingency),
        (OnlineShortTerm, short_term),
    ])
}

fn energies(case: &Case, amounts: &[Kw]) -> Vec<Kw> {
    let energy = |resource| amounts[index_of(case.version, resource, Product::Energy)];
    (0..case.counts.resources).map(energy).collect()
}

/// A flowgate that the energies keep, now and then with nothing to spare.
fn flowgate(random: &mut Random, energies: &[Kw], scale: Scale) -> Flowgate {
    const MOST: Kw = 20_000_000;
    let mut factors: Vec<i64> = energies
        .iter()
        .map(|_| if random.percent(30) { 0 } else { scale.draw(random, -1000, 1000) })
        .collect();
    let flow = |factors: &[i64]| -> i64 {
        let flow: i64 = factors.iter().zip(energies).map(|(factor, energy)| factor * energy).sum();
        flow.div_euclid(1000) + i64::from(flow.rem_euclid(1000) > 0)
    };
    // A flow beyond the largest limit has what drives it halved until it fits.
    while flow(&factors) > MOST {
        for (factor, energy) in factors.iter_mut().zip(energies) {
            if *factor > 0 && *energy > 0 {
                *factor /= 2;
            }
        }
    }
    let least = flow(&factors).max(-MOST);
    let limit = match random.between(0, 2) {
        0 => least,
        1 => (least + random.between(0, scale.power)).min(MOST),
        _ => scale.draw(random, least, MOST),
    };
    Flowgate { limit, factors }
}

/// What the schedule gives towards each curve, in the order of `Curve::ALL`: in
/// one zone or (None) in all.
fn provided(case: &Case, amounts: &[Kw], zone: Option<usize>) -> [Kw; CURVES] {
    let mut sums = [0; CURVES];
    for (index, (resource, standing)) in case.resources.iter().zip(standings(case)).enumerate() {
        if zone.is_some_and(|zone| zone != resource.zone) {
            continue;
        }
        let of = |product| amounts[index_of(case.version, index, product)];
        let spinning = if standing.spinning { of(Product::Contingency) } else { 0 };
        for curve in Curve::of(case.version) {
            sums[curve as usize] += match curve {
                Curve::Operating => of(Product::Regulating) + of(Product::Contingency),
                Curve::RegulatingPlusSpinning => of(Product::Regulating) + spinning,
                Curve::Regulating => of(Product::Regulating),
                Curve::ShortTerm => of(Product::OnlineShortTerm) + of(Product::OfflineShortTerm),
            };
        }
    }
    sums
}

fn set_zone_requirements(random: &mut Random, case: &mut Case, amounts: &[Kw], scale: Scale) {
    for zone in 1..=case.counts.zones {
        let provided = provided(case, amounts, Some(zone));
        for curve in Curve::OF_ZONES {
            let most = provided[curve as usize].min(2_000_000);
            case.zones[zone - 1][curve as usize] = scale.draw(random, 0, most);
        }
    }
}

fn clear_curves(random: &mut Random, case: &Case, amounts: &mut [Kw], scale: Scale) {
    let provided = provided(case, amounts, None);
    for curve in Curve::of(case.version) {
        let most = provided[curve as usize].min(case.curve_width(curve));
        amounts[index_of_cleared(case.version, curve)] =
            if random.percent(60) { most } else { scale.draw(random, 0, most) };
    }
}

/// Prices of every row: any will do for acceptance, good or bad.
fn row_prices(random: &mut Random, case: &Case, scale: Scale) -> Vec<i64> {
    let highest = 1000 * scale.price;
    let manner = random.between(0, 4);
    let row_price = |name| {
        let (least, most, usual) = match name {
            RowName::Demand => (-400_000_000, 400_000_000, highest),
            RowName::Flowgate(_) => (0, 400_000, scale.price),
            RowName::Market(_) | RowName::Zone(..) | RowName::Of(..) => (0, 400_000_000, highest),
        };
        match manner {
            0 => 0,
            1 => random.edgy(least, most),
            2 => most,
            3 if name == RowName::Demand => 1000 * random.between(0, scale.price),
            3 => 0,
            _ if random.percent(50) => 0,
            _ => random.between(0, usual),
        }
    };
    row_names(case.version, case.counts).into_iter().map(row_price).collect()
}
