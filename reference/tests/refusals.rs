//! Every refusal number, by damage whose answer is known beforehand.

mod common;

use common::{check, refused};
use nostwier_reference::case::Flowgate;
use nostwier_reference::damage::{every_damage, random_bytes, random_harm};
use nostwier_reference::generate::{pair_of_counts, random_pair, varied_pair};
use nostwier_reference::layout::{
    case_fields, certificate_fields, Counts, Version, MOST_FLOWGATES, MOST_RESOURCES, MOST_ZONES,
};
use nostwier_reference::random::Random;
use nostwier_reference::{
    charges, check_case, check_certificate, prices, program, read_case, read_certificate, worked,
    write_case, write_certificate, Refusal,
};
use std::collections::BTreeSet;

#[test]
fn generated_pairs_are_accepted() {
    let mut random = Random::new(1);
    for index in 0..400 {
        let pair = random_pair(&mut random);
        let answer = check(&pair);
        assert!(answer.is_ok(), "pair {index}: {answer:?}");
    }
}

#[test]
fn every_damage_meets_its_refusal() {
    let mut random = Random::new(2);
    let mut met = BTreeSet::new();
    let sizes = [(1, 1, 0), (1, 2, 1), (2, 3, 2), (4, 1, 1), (7, 8, 3), (3, 2, MOST_FLOWGATES)];
    for (resources, zones, flowgates) in sizes.into_iter().cycle().take(18) {
        let pair = varied_pair(&mut random, Version::ONE, Counts { resources, zones, flowgates });
        for damaged in every_damage(&pair) {
            let answer = check_certificate(&damaged.case, &damaged.certificate);
            assert_eq!(answer, refused(damaged.refusal), "{}", damaged.what);
            met.insert(damaged.refusal.number());
        }
    }
    assert_eq!(met, (1..=14).collect());
}

#[test]
fn damage_reaches_every_row_and_place() {
    let counts = Counts { resources: 2, zones: 2, flowgates: 2 };
    let mut random = Random::new(3);
    let mut rows = BTreeSet::new();
    let mut places = BTreeSet::new();
    for _ in 0..60 {
        let pair = pair_of_counts(&mut random, Version::ONE, counts);
        for damaged in every_damage(&pair) {
            match damaged.refusal {
                Refusal::Row { row } => rows.insert(row),
                Refusal::Quantity { place } => places.insert(place),
                _ => false,
            };
        }
    }
    assert_eq!(rows, (1..=counts.row_count(Version::ONE)).collect());
    assert_eq!(places, (1..=14).collect());
}

#[test]
fn the_largest_case_meets_its_refusals_too() {
    let counts = Counts { resources: MOST_RESOURCES, zones: MOST_ZONES, flowgates: MOST_FLOWGATES };
    let pair = pair_of_counts(&mut Random::new(4), Version::ONE, counts);
    assert!(check(&pair).is_ok());
    let damages = every_damage(&pair);
    assert!(damages.len() > 10_000);
    for damaged in damages.iter().step_by(97) {
        let answer = check_certificate(&damaged.case, &damaged.certificate);
        assert_eq!(answer, refused(damaged.refusal), "{}", damaged.what);
    }
}

#[test]
fn an_earlier_number_goes_before_a_later_one() {
    let mut pair = worked::pair();
    let mut expect = |change: &mut dyn FnMut(&mut nostwier_reference::generate::Pair), refusal| {
        change(&mut pair);
        assert_eq!(check(&pair), refused(refusal));
    };
    expect(&mut |pair| pair.certificate.amounts[4] = 59_999, Refusal::Row { row: 1 });
    expect(&mut |pair| pair.certificate.amounts[8] = 1, Refusal::Quantity { place: 9 });
    expect(&mut |pair| pair.certificate.amounts[0] = 1, Refusal::Quantity { place: 1 });
    expect(&mut |pair| pair.certificate.row_prices[13] = 400_000_001, Refusal::Price);
    expect(&mut |pair| pair.case.resources[0].emergency.minimum = 1, Refusal::LimitPair);
    expect(&mut |pair| pair.case.curves[3][3].price = 1, Refusal::StepRule);
    expect(&mut |pair| pair.case.resources[0].steps[9].price = 400_001, Refusal::FieldRange);
    let file = pair.case_file();
    let certificate = pair.certificate_file();
    let mut longer = [&file[..], &[0]].concat();
    longer[3] += 1;
    assert_eq!(check_case(&longer), Err(Refusal::CaseSize));
    for flowgates in [17, 16, 13] {
        longer[7] = flowgates;
        assert_eq!(check_case(&longer), Err(Refusal::Counts));
    }
    longer[4] = 0;
    assert_eq!(check_case(&longer), Err(Refusal::CaseVersion));
    longer.push(0);
    assert_eq!(check_case(&longer), Err(Refusal::CaseLength));
    assert_eq!(check_certificate(&longer, &certificate), refused(Refusal::CaseLength));
}

#[test]
fn certificate_heads_are_looked_at_in_order() {
    let pair = worked::pair();
    let case = pair.case_file();
    let mut certificate = [pair.certificate_file(), vec![0]].concat();
    certificate[3] += 1;
    assert_eq!(check_certificate(&case, &certificate), refused(Refusal::CertificateSize));
    certificate[5] = 2;
    assert_eq!(check_certificate(&case, &certificate), refused(Refusal::CertificateCounts));
    certificate[4] = 0;
    assert_eq!(check_certificate(&case, &certificate), refused(Refusal::CertificateVersion));
    certificate[3] += 1;
    assert_eq!(check_certificate(&case, &certificate), refused(Refusal::CertificateLength));
    assert_eq!(check_certificate(&case, &[]), refused(Refusal::CertificateLength));
}

#[test]
fn the_ends_of_every_range_are_inside() {
    // A case of zero widths takes any one field at either end of its range,
    // but for a width behind one of 0, a price of width 0 and a minimum above
    // 0.
    let mut pair = worked::pair();
    pair.case.counts.flowgates = 1;
    pair.case.flowgates = vec![Flowgate { limit: 0, factors: vec![0] }];
    pair.case.resources[0].economic = Default::default();
    pair.case.resources[0].steps = Default::default();
    let (version, counts) = (pair.case.version, pair.case.counts);
    let fields = case_fields(version, counts);
    let numbers = pair.case.numbers();
    let is_step_price = |name: &str| name == "energy price" || name.ends_with("curve price");
    let mut looked_at = 0;
    for (index, field) in fields.iter().enumerate() {
        for number in [field.least, field.most] {
            let mut changed = numbers.clone();
            changed[index] = number;
            let case = nostwier_reference::case::Case::from_numbers(version, counts, &changed);
            let pair = nostwier_reference::generate::Pair { case, ..pair.clone() };
            let behind_none = number > 0 && field.index > 0;
            let expected = match field.name {
                name if name.ends_with("width") && behind_none => Err(Refusal::StepRule),
                name if is_step_price(name) && number != 0 => Err(Refusal::StepRule),
                name if name.ends_with("minimum") && number > 0 => Err(Refusal::LimitPair),
                _ => Ok(()),
            };
            let answer = check_case(&pair.case_file()).map(|_| ());
            assert_eq!(answer, expected, "{field:?} at {number}");
            looked_at += 1;
        }
    }
    assert_eq!(looked_at, 2 * (48 - 3 + 4 + 43 + 2));
}

#[test]
fn sizes_are_those_of_the_paper() {
    for (resources, zones, flowgates) in [(1, 1, 0), (64, 8, 12), (5, 3, 2)] {
        let counts = Counts { resources, zones, flowgates };
        let case = case_fields(Version::ONE, counts);
        let certificate = certificate_fields(Version::ONE, counts);
        assert_eq!(3 + case.len(), 48 + 4 * zones + 43 * resources + flowgates * (resources + 1));
        assert_eq!(3 + certificate.len(), 12 + 4 * zones + flowgates + 10 * resources);
        assert_eq!(
            nostwier_reference::layout::file_size(&case),
            170 + 16 * zones + 154 * resources + flowgates * (4 + 2 * resources)
        );
        assert_eq!(
            nostwier_reference::layout::file_size(&certificate),
            44 + 16 * zones + 4 * flowgates + 40 * resources
        );
    }
}

#[test]
fn no_harm_makes_an_operation_panic_or_disagree() {
    let mut random = Random::new(5);
    let mut accepted = 0;
    for _ in 0..3000 {
        let counts = Counts {
            resources: random.between(1, 4) as usize,
            zones: random.between(1, 3) as usize,
            flowgates: random.between(0, 2) as usize,
        };
        let pair = pair_of_counts(&mut random, Version::ONE, counts);
        let (case, certificate) = random_harm(&mut random, &pair);
        let mut numbers = vec![0; 4000];
        let answer = check_certificate(&case, &certificate);
        let refusal = answer.map(|_| ());
        assert_eq!(prices(&case, &certificate, &mut numbers).map(|_| ()), refusal);
        assert_eq!(charges(&case, &certificate, &mut numbers).map(|_| ()), refusal);
        let case_refusal = check_case(&case).map(|_| ());
        assert_eq!(read_case(&case, &mut numbers).map(|_| ()), case_refusal);
        let _ = read_certificate(&certificate, &mut numbers);
        accepted += usize::from(answer.is_ok());
    }
    // Some harm touches nothing that matters; most does.
    assert!((1..1500).contains(&accepted), "{accepted} accepted");
}

#[test]
fn random_bytes_are_refused() {
    // Their first four bytes are not their length, and as numbers the first
    // is out of R's range.
    let mut random = Random::new(6);
    for _ in 0..2000 {
        let (one, other) = (random_bytes(&mut random), random_bytes(&mut random));
        assert_eq!(check_case(&one).map(|_| ()), Err(Refusal::CaseLength));
        assert_eq!(check_certificate(&one, &other), refused(Refusal::CaseLength));
        assert_eq!(read_certificate(&other, &mut [0; 4000]), Err(Refusal::CertificateLength));
        assert_eq!(program::text(&one), refused(Refusal::CaseLength));
        let numbers: Vec<i64> = one
            .chunks(8)
            .map(|chunk| chunk.iter().fold(0, |sum, byte| sum << 8 | i64::from(*byte)))
            .collect();
        let expected = if numbers.len() < 3 { Refusal::Numbers } else { Refusal::Counts };
        assert_eq!(write_case(&numbers, &mut [0; 4000]), Err(expected));
        assert_eq!(write_certificate(&numbers, &mut [0; 4000]), Err(expected));
    }
}

#[test]
fn fifteen_comes_last_and_writes_nothing() {
    let pair = worked::pair();
    let (case, certificate) = (pair.case_file(), pair.certificate_file());
    let mut four = [7; 4];
    assert_eq!(prices(&case, &certificate, &mut four), refused(Refusal::BufferTooShort));
    assert_eq!(charges(&case, &certificate, &mut four), refused(Refusal::BufferTooShort));
    assert_eq!(read_case(&case, &mut four), Err(Refusal::BufferTooShort));
    assert_eq!(read_certificate(&certificate, &mut four), Err(Refusal::BufferTooShort));
    assert_eq!(prices(&case[1..], &certificate, &mut four), refused(Refusal::CaseLength));
    assert_eq!(charges(&case, &[], &mut four), refused(Refusal::CertificateLength));
    assert_eq!(four, [7; 4]);
}

#[test]
fn a_success_leaves_the_rest_of_the_buffer_alone() {
    let pair = worked::pair();
    let (case, certificate) = (pair.case_file(), pair.certificate_file());
    let mut out = [7; 50];
    assert_eq!(charges(&case, &certificate, &mut out), Ok(44));
    assert_eq!(out[44..], [7; 6]);
    let mut out = [7; 6];
    assert_eq!(prices(&case, &certificate, &mut out), Ok(5));
    assert_eq!(out, [3_000_000, 0, 0, 0, 0, 7]);
}

#[test]
fn seventeen_goes_before_all_others() {
    let pair = worked::pair();
    let input = [pair.case_file(), pair.certificate_file()].concat();
    let mut longest = input.clone();
    longest.resize(32_768, 0);
    assert_eq!(program::text(&longest), refused(Refusal::CertificateLength));
    longest.push(0);
    assert_eq!(program::text(&longest), refused(Refusal::InputTooLong));
    assert_eq!(program::text(&[0; 32_769]), refused(Refusal::InputTooLong));
}

#[test]
fn the_program_takes_short_input_as_the_case() {
    for length in 0..170 {
        assert_eq!(program::text(&vec![0; length]), refused(Refusal::CaseLength));
    }
    let pair = worked::pair();
    let input = [pair.case_file(), pair.certificate_file()].concat();
    for length in 0..input.len() {
        let expected = match length {
            0..=339 => Refusal::CaseLength,
            _ => Refusal::CertificateLength,
        };
        assert_eq!(program::text(&input[..length]), refused(expected), "{length} bytes");
    }
    assert!(program::text(&input).is_ok());
}
