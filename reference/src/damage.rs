//! Damage to a valid pair, each with the refusal that it must meet. Only one
//! thing is wrong at a time, so the refusal is known beforehand.

use crate::case::{Case, Curve, Step};
use crate::certificate::{first_above_bound, upper_bounds, Certificate};
use crate::generate::Pair;
use crate::layout::{
    self, Field, ENERGY_STEPS, HEAD, MOST_FLOWGATES, MOST_RESOURCES, MOST_ZONES, SHORTEST_CASE,
    SHORTEST_CERTIFICATE,
};
use crate::random::Random;
use crate::refusal::Refusal;
use crate::rows::{index_of, index_of_cleared, rows, Limit, RowName};
use crate::standing::{
    offline_standing, operating_state, standing, standings, OperatingState, Product,
};

/// A damaged pair, what was done to it, and how it must be refused.
#[derive(Clone, Debug)]
pub struct Damaged {
    pub what: String,
    pub case: Vec<u8>,
    pub certificate: Vec<u8>,
    pub refusal: Refusal,
}

type DamageKind = fn(&Pair) -> Vec<Damaged>;

/// The limit before request 9, which a program that missed it still has.
const EARLIER_MOST_FLOWGATES: usize = 16;

/// Numbers of flowgates that are too many, those that are easily let through
/// before the largest that a byte holds.
pub const TOO_MANY_FLOWGATES: [usize; 4] =
    [MOST_FLOWGATES + 1, EARLIER_MOST_FLOWGATES, EARLIER_MOST_FLOWGATES + 1, u8::MAX as usize];

/// The systematic kinds of damage to files that stay laid out with the flowgates
/// of their pair.
const KINDS: [DamageKind; 9] = [
    case_fields_past_their_ends,
    certificate_fields_past_their_ends,
    quantities_above_their_bounds,
    heads,
    truncations,
    lengths_off_by_one,
    steps_against_their_rule,
    minima_above_maxima,
    broken_rows,
];

/// Every damage of the systematic kinds, what tripped resources may not sell,
/// and files laid out with too many flowgates.
pub fn every_damage(pair: &Pair) -> Vec<Damaged> {
    let mut list = every_damage_with_its_flowgates(pair);
    list.extend(too_many_flowgates(pair));
    list
}

/// Every damage to files that stay laid out with the flowgates of their pair.
pub fn every_damage_with_its_flowgates(pair: &Pair) -> Vec<Damaged> {
    KINDS.iter().flat_map(|kind| kind(pair)).chain(reserve_of_tripped(pair)).collect()
}

/// One systematic damage, its kind drawn first so that no kind is rare.
pub fn some_damage(random: &mut Random, pair: &Pair) -> Option<Damaged> {
    let kinds = [&KINDS[..], &[too_many_flowgates]].concat();
    let mut damages = random.pick(&kinds)(pair);
    if damages.is_empty() {
        return None;
    }
    Some(damages.swap_remove(random.index(damages.len())))
}

/// The numbers just past the two ends of a field's range, where they fit it.
fn just_past(field: &Field) -> Vec<i64> {
    [field.least - 1, field.most + 1].into_iter().filter(|it| field.width.holds(*it)).collect()
}

/// A file with one of its fields holding another number.
fn with_number(file: &[u8], fields: &[Field], index: usize, number: i64) -> Vec<u8> {
    let at = HEAD + fields[..index].iter().map(|field| field.width.size()).sum::<usize>();
    let size = fields[index].width.size();
    let mut out = file.to_vec();
    out[at..at + size].copy_from_slice(&number.to_be_bytes()[8 - size..]);
    out
}

fn describe(field: &Field, number: i64) -> String {
    format!("{} of {} is {number}", field.name, field.of)
}

pub fn case_fields_past_their_ends(pair: &Pair) -> Vec<Damaged> {
    let fields = layout::case_fields(pair.case.version, pair.case.counts);
    let file = pair.case_file();
    let certificate = pair.certificate_file();
    past_ends(&fields, |index, number, what| Damaged {
        what,
        case: with_number(&file, &fields, index, number),
        certificate: certificate.clone(),
        refusal: Refusal::FieldRange,
    })
}

pub fn certificate_fields_past_their_ends(pair: &Pair) -> Vec<Damaged> {
    let fields = layout::certificate_fields(pair.certificate.version, pair.certificate.counts);
    let file = pair.certificate_file();
    let case = pair.case_file();
    past_ends(&fields, |index, number, what| Damaged {
        what,
        case: case.clone(),
        certificate: with_number(&file, &fields, index, number),
        refusal: Refusal::Price,
    })
}

fn past_ends(fields: &[Field], damage: impl Fn(usize, i64, String) -> Damaged) -> Vec<Damaged> {
    let mut list = Vec::new();
    for (index, field) in fields.iter().enumerate() {
        for number in just_past(field) {
            list.push(damage(index, number, describe(field, number)));
        }
    }
    list
}

/// Each quantity one above its bound: 13, at its own place.
pub fn quantities_above_their_bounds(pair: &Pair) -> Vec<Damaged> {
    let bounds = upper_bounds(&pair.case, &standings(&pair.case));
    let mut list = Vec::new();
    for (index, bound) in bounds.into_iter().enumerate() {
        let mut certificate = pair.certificate.clone();
        certificate.amounts[index] = bound + 1;
        let place = index + 1;
        list.push(Damaged {
            what: format!("the quantity at place {place} is above its bound"),
            case: pair.case_file(),
            certificate: with_certificate(pair, certificate).certificate_file(),
            refusal: Refusal::Quantity { place },
        });
    }
    list
}

/// A tripped resource with all the contingency or off-line short-term reserve
/// that it could give if it were off-line: 13 (02, request 2).
pub fn reserve_of_tripped(pair: &Pair) -> Vec<Damaged> {
    let mut list = Vec::new();
    for (index, resource) in pair.case.resources.iter().enumerate() {
        let offline = offline_standing(&pair.case, resource);
        for product in [Product::Contingency, Product::OfflineShortTerm] {
            let most = offline.bound(product);
            if operating_state(resource) == OperatingState::Tripped && most > 0 {
                let mut certificate = pair.certificate.clone();
                let place = index_of(certificate.version, index, product);
                certificate.amounts[place] = most;
                let refusal = Refusal::Quantity { place: place + 1 };
                let what = format!("tripped resource {index} gives reserve");
                list.push(of_pair(what, &with_certificate(pair, certificate), refusal));
            }
        }
    }
    list
}

/// Versions and counts other than they should be, the size as it was.
pub fn heads(pair: &Pair) -> Vec<Damaged> {
    let mut list = other_versions(pair);
    list.extend(counts_out_of_range(pair));
    list.extend(counts_off_by_one(pair));
    list.extend(flowgates_of_the_certificate(pair));
    list
}

/// A damage to the case alone, and one to the certificate alone.
fn of_case(what: String, case: Vec<u8>, pair: &Pair, refusal: Refusal) -> Damaged {
    Damaged { what, case, certificate: pair.certificate_file(), refusal }
}

fn of_certificate(what: String, pair: &Pair, certificate: Vec<u8>, refusal: Refusal) -> Damaged {
    Damaged { what, case: pair.case_file(), certificate, refusal }
}

fn other_versions(pair: &Pair) -> Vec<Damaged> {
    let mut list = Vec::new();
    for version in [0, 128, 255] {
        let what = format!("case version {version}");
        let case = with_byte(&pair.case_file(), 4, version);
        list.push(of_case(what, case, pair, Refusal::CaseVersion));
        let what = format!("certificate version {version}");
        let certificate = with_byte(&pair.certificate_file(), 4, version);
        list.push(of_certificate(what, pair, certificate, Refusal::CertificateVersion));
    }
    list
}

fn counts_out_of_range(pair: &Pair) -> Vec<Damaged> {
    let [resources, zones] = [MOST_RESOURCES, MOST_ZONES].map(|most| most as u8 + 1);
    let mut wrong = vec![(5, 0), (5, resources), (5, 255), (6, 0), (6, zones), (6, 255)];
    wrong.extend(TOO_MANY_FLOWGATES.map(|flowgates| (7, flowgates as u8)));
    let damaged = |(at, count)| {
        let what = format!("count at byte {at} is {count}");
        of_case(what, with_byte(&pair.case_file(), at, count), pair, Refusal::Counts)
    };
    wrong.into_iter().map(damaged).collect()
}

fn counts_off_by_one(pair: &Pair) -> Vec<Damaged> {
    let counts = pair.case.counts;
    let written = [counts.resources, counts.zones, counts.flowgates];
    let most = [MOST_RESOURCES, MOST_ZONES, MOST_FLOWGATES];
    let mut list = Vec::new();
    for (at, (count, most)) in (5..).zip(written.into_iter().zip(most)) {
        let other = if count < most { count + 1 } else { count - 1 } as u8;
        let what = format!("case count at byte {at} off by one");
        let case = with_byte(&pair.case_file(), at, other);
        list.push(of_case(what, case, pair, Refusal::CaseSize));
        let what = format!("certificate count at byte {at} off by one");
        let certificate = with_byte(&pair.certificate_file(), at, other);
        list.push(of_certificate(what, pair, certificate, Refusal::CertificateCounts));
    }
    list
}

fn flowgates_of_the_certificate(pair: &Pair) -> Vec<Damaged> {
    let damaged = |flowgates| {
        let what = format!("the certificate announces {flowgates} flowgates");
        let certificate = with_byte(&pair.certificate_file(), 7, flowgates as u8);
        of_certificate(what, pair, certificate, Refusal::CertificateCounts)
    };
    TOO_MANY_FLOWGATES.into_iter().map(damaged).collect()
}

/// Files laid out with more flowgates than are allowed, and right but for that:
/// 3 for the case, with a certificate of as many and with its own; 10 for the
/// certificate beside the valid case (request 9).
pub fn too_many_flowgates(pair: &Pair) -> Vec<Damaged> {
    let mut list = Vec::new();
    for flowgates in TOO_MANY_FLOWGATES {
        let wider = pair.with_flowgates(flowgates);
        let what = format!("both files are laid out with {flowgates} flowgates");
        list.push(of_pair(what, &wider, Refusal::Counts));
        let what = format!("the case is laid out with {flowgates} flowgates");
        list.push(of_case(what, wider.case_file(), pair, Refusal::Counts));
        let what = format!("the certificate is laid out with {flowgates} flowgates");
        let certificate = wider.certificate_file();
        list.push(of_certificate(what, pair, certificate, Refusal::CertificateCounts));
    }
    list
}

fn with_byte(file: &[u8], at: usize, byte: u8) -> Vec<u8> {
    let mut out = file.to_vec();
    out[at] = byte;
    out
}

fn with_length_set(mut file: Vec<u8>) -> Vec<u8> {
    if let Some(after) = file.len().checked_sub(4) {
        file[..4].copy_from_slice(&(after as u32).to_be_bytes());
    }
    file
}

/// Both files cut at every length, with the old length and with the right one.
pub fn truncations(pair: &Pair) -> Vec<Damaged> {
    let case = pair.case_file();
    let certificate = pair.certificate_file();
    let mut list = Vec::new();
    for length in 0..case.len() {
        let cut = case[..length].to_vec();
        let short = length < SHORTEST_CASE;
        list.push(Damaged {
            what: format!("case cut to {length} bytes"),
            case: cut.clone(),
            certificate: certificate.clone(),
            refusal: Refusal::CaseLength,
        });
        list.push(Damaged {
            what: format!("case cut to {length} bytes, length set"),
            case: with_length_set(cut),
            certificate: certificate.clone(),
            refusal: if short { Refusal::CaseLength } else { Refusal::CaseSize },
        });
    }
    for length in 0..certificate.len() {
        let cut = certificate[..length].to_vec();
        let short = length < SHORTEST_CERTIFICATE;
        list.push(Damaged {
            what: format!("certificate cut to {length} bytes"),
            case: case.clone(),
            certificate: cut.clone(),
            refusal: Refusal::CertificateLength,
        });
        list.push(Damaged {
            what: format!("certificate cut to {length} bytes, length set"),
            case: case.clone(),
            certificate: with_length_set(cut),
            refusal: if short { Refusal::CertificateLength } else { Refusal::CertificateSize },
        });
    }
    list
}

/// The announced length one less or more than it should be, and a byte more.
pub fn lengths_off_by_one(pair: &Pair) -> Vec<Damaged> {
    let case = pair.case_file();
    let certificate = pair.certificate_file();
    let announce = |file: &[u8], change: i64| {
        let length = (file.len() as i64 - 4 + change) as u32;
        [&length.to_be_bytes(), &file[4..]].concat()
    };
    let longer = |file: &[u8]| [file, &[0]].concat();
    let mut list = Vec::new();
    let mut push = |what: &str, case: Vec<u8>, certificate: Vec<u8>, refusal| {
        list.push(Damaged { what: what.to_string(), case, certificate, refusal });
    };
    for change in [-1, 1] {
        let what = format!("announced length off by {change}");
        let damaged = announce(&case, change);
        push(&what, damaged, certificate.clone(), Refusal::CaseLength);
        let damaged = announce(&certificate, change);
        push(&what, case.clone(), damaged, Refusal::CertificateLength);
    }
    push("case a byte longer", longer(&case), certificate.clone(), Refusal::CaseLength);
    push(
        "case a byte longer, length set",
        with_length_set(longer(&case)),
        certificate.clone(),
        Refusal::CaseSize,
    );
    push(
        "certificate a byte longer",
        case.clone(),
        longer(&certificate),
        Refusal::CertificateLength,
    );
    push(
        "certificate a byte longer, length set",
        case.clone(),
        with_length_set(longer(&certificate)),
        Refusal::CertificateSize,
    );
    list
}

fn with_case(pair: &Pair, case: Case) -> Pair {
    Pair { case, certificate: pair.certificate.clone() }
}

fn with_certificate(pair: &Pair, certificate: Certificate) -> Pair {
    Pair { case: pair.case.clone(), certificate }
}

fn of_pair(what: String, pair: &Pair, refusal: Refusal) -> Damaged {
    Damaged { what, case: pair.case_file(), certificate: pair.certificate_file(), refusal }
}

/// Steps whose prices turn, empty steps that are priced or stand too early,
/// and an offer a kW too wide: 6.
pub fn steps_against_their_rule(pair: &Pair) -> Vec<Damaged> {
    let of_curves = Curve::of(pair.case.version).flat_map(|curve| wrong_curves(pair, curve));
    let resources = 0..pair.case.resources.len();
    let of_offers = resources.flat_map(|resource| wrong_offers(pair, resource));
    of_curves
        .chain(of_offers)
        .map(|(what, case)| of_pair(what, &with_case(pair, case), Refusal::StepRule))
        .collect()
}

/// The case with the steps of a curve against their rule, in each way.
fn wrong_curves(pair: &Pair, curve: Curve) -> [(String, Case); 3] {
    let changed = |change: fn(&mut [Step])| {
        let mut case = pair.case.clone();
        change(&mut case.curves[curve as usize]);
        case
    };
    let rising = changed(|steps| {
        steps[0] = Step { width: steps[0].width.max(1), price: 7 };
        steps[1] = Step { width: steps[1].width.max(1), price: 8 };
    });
    let priced = changed(|steps| steps[3] = Step { width: 0, price: 1 });
    let too_early = changed(|steps| {
        steps[0] = Step::default();
        steps[1].width = 1;
    });
    [
        (format!("prices of {curve:?} rise"), rising),
        (format!("an empty step of {curve:?} has a price"), priced),
        (format!("an empty step of {curve:?} comes first"), too_early),
    ]
}

/// The case with the energy steps of a resource against their rule, in each way.
fn wrong_offers(pair: &Pair, resource: usize) -> [(String, Case); 4] {
    const ONE_WIDE: Step = Step { width: 1, price: 5 };
    let changed = |change: fn(&mut [Step; ENERGY_STEPS])| {
        let mut case = pair.case.clone();
        change(&mut case.resources[resource].steps);
        case
    };
    let falling = changed(|steps| {
        *steps = [ONE_WIDE; ENERGY_STEPS];
        steps[9].price = 4;
    });
    let priced = changed(|steps| steps[9] = Step { width: 0, price: -1 });
    let between = changed(|steps| {
        *steps = [ONE_WIDE; ENERGY_STEPS];
        steps[4] = Step::default();
    });
    let too_wide = changed(|steps| {
        *steps = [Step::default(); ENERGY_STEPS];
        steps[0] = Step { width: 2_000_000, price: 0 };
        steps[1] = Step { width: 1, price: 0 };
    });
    [
        (format!("energy prices of resource {resource} fall"), falling),
        (format!("an empty energy step of resource {resource} has a price"), priced),
        (format!("an empty energy step of resource {resource} stands between"), between),
        (format!("the offer of resource {resource} is a kW too wide"), too_wide),
    ]
}

/// Each minimum above its maximum: 7.
pub fn minima_above_maxima(pair: &Pair) -> Vec<Damaged> {
    let mut list = Vec::new();
    for resource in 0..pair.case.resources.len() {
        for which in 0..3 {
            let mut case = pair.case.clone();
            let resource_fields = &mut case.resources[resource];
            let limits = [
                &mut resource_fields.economic,
                &mut resource_fields.regulating,
                &mut resource_fields.emergency,
            ];
            for (index, limits) in limits.into_iter().enumerate() {
                if index == which {
                    limits.maximum = limits.maximum.min(1_999_999);
                    limits.minimum = limits.maximum + 1;
                }
            }
            let what = format!("minimum {which} of resource {resource} is above its maximum");
            list.push(of_pair(what, &with_case(pair, case), Refusal::LimitPair));
        }
    }
    list
}

/// Rows broken by the least amount, the rows before them kept: 14.
pub fn broken_rows(pair: &Pair) -> Vec<Damaged> {
    let mut list = Vec::new();
    for (index, row) in rows(&pair.case, &standings(&pair.case)).iter().enumerate() {
        let slack = row.slack(&pair.certificate.amounts) as i64;
        let breaks = match row.name {
            RowName::Demand => broken_demand(pair),
            RowName::Market(curve) => broken_market_row(pair, curve, slack),
            RowName::Zone(zone, curve) => broken_zone_row(pair, zone, curve, slack),
            RowName::Flowgate(flowgate) => broken_flowgate(pair, flowgate, slack),
            RowName::Of(resource, limit) => broken_limit(pair, resource, limit),
        };
        for (what, broken) in breaks {
            list.push(of_pair(what, &broken, Refusal::Row { row: index + 1 }));
        }
    }
    list
}

/// Pairs in which a row is broken, each with what was done to it; none if the
/// ranges of the fields do not allow it.
type Broken = Vec<(String, Pair)>;

fn broken_demand(pair: &Pair) -> Broken {
    let mut list = Vec::new();
    for change in [-1, 1] {
        let mut case = pair.case.clone();
        case.demand += change;
        if (0..=128_000_000).contains(&case.demand) {
            list.push((format!("demand off by {change}"), with_case(pair, case)));
        }
    }
    list
}

fn broken_market_row(pair: &Pair, curve: Curve, slack: i64) -> Broken {
    let mut certificate = pair.certificate.clone();
    let cleared = &mut certificate.amounts[index_of_cleared(pair.certificate.version, curve)];
    *cleared += slack + 1;
    if *cleared > pair.case.curve_width(curve) {
        return Vec::new();
    }
    vec![(format!("a kW too much clears on {curve:?}"), with_certificate(pair, certificate))]
}

fn broken_zone_row(pair: &Pair, zone: usize, curve: Curve, slack: i64) -> Broken {
    let mut case = pair.case.clone();
    let requirement = &mut case.zones[zone][curve as usize];
    *requirement += slack + 1;
    if *requirement > 2_000_000 {
        return Vec::new();
    }
    vec![(format!("zone {zone} asks for a kW too much of {curve:?}"), with_case(pair, case))]
}

fn broken_flowgate(pair: &Pair, flowgate: usize, slack: i64) -> Broken {
    let mut case = pair.case.clone();
    let limit = &mut case.flowgates[flowgate].limit;
    *limit -= slack / 1000 + 1;
    if *limit < -20_000_000 {
        return Vec::new();
    }
    vec![(format!("limit of flowgate {flowgate} is a kW too little"), with_case(pair, case))]
}

fn broken_limit(pair: &Pair, resource: usize, limit: Limit) -> Broken {
    if !standing(&pair.case, &pair.case.resources[resource]).is_online() {
        return Vec::new();
    }
    let what = format!("{limit:?} of resource {resource} is a kW off");
    case_past_limit(pair, resource, limit)
        .map(|case| (what, with_case(pair, case)))
        .into_iter()
        .collect()
}

/// The case with a limit of an on-line resource moved past its schedule, by a kW.
fn case_past_limit(pair: &Pair, resource: usize, limit: Limit) -> Option<Case> {
    let Certificate { version, amounts, .. } = &pair.certificate;
    let of = |product| amounts[index_of(*version, resource, product)];
    let energy = of(Product::Energy);
    let within_max = energy + of(Product::Regulating) + of(Product::Contingency);
    let short_term = energy + of(Product::OnlineShortTerm);
    let mut case = pair.case.clone();
    let changed = &mut case.resources[resource];
    match limit {
        Limit::Maximum => return with_maximum(pair, resource, within_max - 1),
        Limit::MaximumWithShortTerm if short_term > within_max => {
            return with_maximum(pair, resource, short_term - 1);
        }
        Limit::Minimum => {
            return with_minimum(pair, resource, energy - of(Product::Regulating) + 1);
        }
        Limit::High if energy > 0 => {
            changed.initial = energy - 1;
            changed.ramp_up = 0;
        }
        Limit::Low if energy < 2_000_000 => {
            changed.initial = energy + 1;
            changed.ramp_down = 0;
        }
        Limit::MaximumWithShortTerm | Limit::High | Limit::Low => return None,
    }
    Some(case)
}

/// The case with all three maxima of a resource at `most`; None unless the
/// bounds of its quantities and its minima still stand below.
fn with_maximum(pair: &Pair, resource: usize, most: i64) -> Option<Case> {
    let mut case = pair.case.clone();
    let changed = &mut case.resources[resource];
    for limits in [&mut changed.economic, &mut changed.regulating, &mut changed.emergency] {
        limits.maximum = most;
        limits.minimum = limits.minimum.min(most);
    }
    keeps_bounds(pair, &case, resource).then_some(case)
}

/// The case with all three minima of a resource at `least`, if that is not
/// above one of its maxima.
fn with_minimum(pair: &Pair, resource: usize, least: i64) -> Option<Case> {
    let mut case = pair.case.clone();
    let changed = &mut case.resources[resource];
    for limits in [&mut changed.economic, &mut changed.regulating, &mut changed.emergency] {
        limits.minimum = least;
        if limits.maximum < least {
            return None;
        }
    }
    Some(case)
}

fn keeps_bounds(pair: &Pair, case: &Case, resource: usize) -> bool {
    case.resources[resource].economic.maximum >= 0
        && first_above_bound(case, &standings(case), &pair.certificate.amounts).is_none()
}

/// Random harm without a known answer: bytes changed, swapped, moved between
/// the files, or nothing but random bytes.
pub fn random_harm(random: &mut Random, pair: &Pair) -> (Vec<u8>, Vec<u8>) {
    let mut case = pair.case_file();
    let mut certificate = pair.certificate_file();
    match random.between(0, 5) {
        0 => {
            for _ in 0..random.between(1, 4) {
                let at = random.index(case.len());
                case[at] = random.bits() as u8;
            }
        }
        1 => {
            for _ in 0..random.between(1, 4) {
                let at = random.index(certificate.len());
                certificate[at] = random.bits() as u8;
            }
        }
        2 => {
            let (one, other) = (4 + random.index(4), 4 + random.index(4));
            case.swap(one, other);
            certificate.swap(one, other);
        }
        3 => std::mem::swap(&mut case, &mut certificate),
        4 => case = random_bytes(random),
        _ => certificate = random_bytes(random),
    }
    (case, certificate)
}

pub fn random_bytes(random: &mut Random) -> Vec<u8> {
    let length = random.edgy(0, 400) as usize;
    (0..length).map(|_| random.bits() as u8).collect()
}
