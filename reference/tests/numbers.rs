//! Reading into numbers and writing from them.

use nostwier_reference::case::{Case, Flowgate, Kind, Limits, Reserve, Resource, Step};
use nostwier_reference::generate::random_pair;
use nostwier_reference::layout::{Counts, Version};
use nostwier_reference::random::Random;
use nostwier_reference::{
    read_case, read_certificate, worked, write_case, write_certificate, Refusal,
};

fn case_numbers() -> Vec<i64> {
    let mut numbers = vec![0; 200];
    let count = read_case(&worked::pair().case_file(), &mut numbers).expect("valid");
    numbers.truncate(count);
    numbers
}

fn certificate_numbers() -> Vec<i64> {
    let mut numbers = vec![0; 200];
    let count = read_certificate(&worked::pair().certificate_file(), &mut numbers).expect("valid");
    numbers.truncate(count);
    numbers
}

#[test]
fn the_numbers_of_k_are_its_fields() {
    let numbers = case_numbers();
    assert_eq!(numbers.len(), 48 + 4 + 43);
    assert_eq!(numbers[..10], [1, 1, 0, 60_000, 1000, 10, 1000, 10, 1000, 10]);
    let resource = &numbers[52..];
    assert_eq!(resource[..9], [1, 1, 1, 0, 255, 0, 50_000, 20_000, 100_000]);
    assert_eq!(resource[13..17], [3_000, 3_000, 3_000, 50_000]);
    assert_eq!(resource[23..28], [40_000, 2_000, 60_000, 3_000, 0]);
    let numbers = certificate_numbers();
    assert_eq!(numbers.len(), 12 + 4 + 10);
    assert_eq!(numbers[..8], [1, 1, 0, 0, 0, 0, 0, 3_000_000]);
    assert_eq!(numbers[16..18], [60_000, 0]);
}

#[test]
fn multipliers_lie_beside_their_minutes_and_shares_start_with_regulating() {
    let mut pair = worked::pair();
    pair.case.contingency =
        nostwier_reference::case::Reserve { multiplier: 1, minutes: 2, share: 8, requirement: 11 };
    pair.case.regulating =
        nostwier_reference::case::Reserve { multiplier: 3, minutes: 4, share: 7, requirement: 10 };
    pair.case.short_term =
        nostwier_reference::case::Reserve { multiplier: 5, minutes: 6, share: 9, requirement: 12 };
    let mut numbers = vec![0; 200];
    read_case(&pair.case_file(), &mut numbers).expect("valid");
    assert_eq!(numbers[4..16], [1, 2, 3, 4, 5, 6, 7, 8, 9, 10, 11, 12]);
}

fn steps<const N: usize>(first: i64) -> [Step; N] {
    std::array::from_fn(|step| Step {
        width: first + 2 * step as i64,
        price: first + 2 * step as i64 + 1,
    })
}

/// A resource whose figures are 3, 4 and so on in the order of the paper, after
/// kind 2, zone 1 and a closed breaker.
fn numbered_resource() -> Resource {
    Resource {
        kind: Kind::Intermittent,
        zone: 1,
        breaker_closed: true,
        status: 3,
        minutes_since_trip: 4,
        flags: 5,
        output: 6,
        economic: Limits { minimum: 7, maximum: 8 },
        regulating: Limits { minimum: 9, maximum: 10 },
        emergency: Limits { minimum: 11, maximum: 12 },
        ramp_up: 13,
        ramp_down: 14,
        ramp_rate: 15,
        initial: 16,
        offline_response: 17,
        offline_short_term: 18,
        self_schedule: 19,
        regulating_price: 20,
        contingency_price: 21,
        offline_short_term_price: 22,
        steps: steps(23),
    }
}

#[test]
fn every_figure_of_a_case_stands_where_the_paper_has_it() {
    let reserve = |multiplier, minutes, share, requirement| Reserve {
        multiplier,
        minutes,
        share,
        requirement,
    };
    let case = Case {
        version: Version::ONE,
        counts: Counts { resources: 1, zones: 2, flowgates: 2 },
        demand: 1,
        contingency: reserve(2, 3, 9, 12),
        regulating: reserve(4, 5, 8, 11),
        short_term: reserve(6, 7, 10, 13),
        curves: [steps(14), steps(22), steps(30), steps(38)],
        zones: vec![[46, 47, 48, 49], [50, 51, 52, 53]],
        resources: vec![numbered_resource()],
        flowgates: [54, 56].map(|limit| Flowgate { limit, factors: vec![limit + 1] }).into(),
    };
    let before: Vec<i64> = (1..=53).collect();
    let resource: Vec<i64> = [2, 1, 1].into_iter().chain(3..=42).collect();
    assert_eq!(case.numbers(), [&before[..], &resource, &[54, 55, 56, 57]].concat());
    assert_eq!(Case::from_numbers(case.version, case.counts, &case.numbers()), case);
}

#[test]
fn what_is_read_is_written_back() {
    let mut random = Random::new(31);
    for _ in 0..150 {
        let pair = random_pair(&mut random);
        let mut numbers = vec![0; 5000];
        let mut bytes = vec![0; 13_000];

        let file = pair.case_file();
        let count = read_case(&file, &mut numbers).expect("valid");
        let size = write_case(&numbers[..count], &mut bytes).expect("valid");
        assert_eq!(bytes[..size], file);

        let file = pair.certificate_file();
        let count = read_certificate(&file, &mut numbers).expect("valid");
        let size = write_certificate(&numbers[..count], &mut bytes).expect("valid");
        assert_eq!(bytes[..size], file);
    }
}

#[test]
fn a_certificate_is_read_and_written_whatever_its_prices() {
    let mut numbers = certificate_numbers();
    numbers[7] = i64::from(i32::MIN);
    for number in &mut numbers[8..] {
        *number = i64::from(u32::MAX);
    }
    let mut bytes = [0; 200];
    let size = write_certificate(&numbers, &mut bytes).expect("fits");
    let mut back = [0; 200];
    assert_eq!(read_certificate(&bytes[..size], &mut back), Ok(numbers.len()));
    assert_eq!(back[..numbers.len()], numbers);
}

#[test]
fn a_certificate_of_impossible_counts_is_3_when_read() {
    let mut file = worked::pair().certificate_file();
    file[5] = 0;
    assert_eq!(read_certificate(&file, &mut [0; 200]), Err(Refusal::Counts));
    file[4] = 0;
    assert_eq!(read_certificate(&file, &mut [0; 200]), Err(Refusal::CertificateVersion));
    file.pop();
    assert_eq!(read_certificate(&file, &mut [0; 200]), Err(Refusal::CertificateLength));
    let mut file = worked::pair().certificate_file();
    file[5] = 2;
    assert_eq!(read_certificate(&file, &mut [0; 200]), Err(Refusal::CertificateSize));
}

type Writer = fn(&[i64], &mut [u8]) -> Result<usize, Refusal>;

/// Both writers with numbers they take.
fn writers() -> [(Writer, Vec<i64>); 2] {
    [(write_case, case_numbers()), (write_certificate, certificate_numbers())]
}

#[test]
fn writers_refuse_lists_of_the_wrong_length_or_shape() {
    for (write, numbers) in writers() {
        let mut out = [7; 400];
        for count in 0..3 {
            assert_eq!(write(&numbers[..count], &mut out), Err(Refusal::Numbers));
        }
        for count in 3..numbers.len() {
            assert_eq!(write(&numbers[..count], &mut out), Err(Refusal::Numbers));
        }
        let longer = [&numbers[..], &[0]].concat();
        assert_eq!(write(&longer, &mut out), Err(Refusal::Numbers));
        let wrong = [(0, 0), (0, 65), (0, -1), (0, i64::MAX), (1, 0), (1, 9)];
        let wrong_flowgates = [-1, 13, 16, 17, 255, 256].map(|count| (2, count));
        for (index, count) in wrong.into_iter().chain(wrong_flowgates) {
            let mut changed = numbers.clone();
            changed[index] = count;
            changed[4] = i64::MIN;
            assert_eq!(write(&changed, &mut out), Err(Refusal::Counts));
        }
        assert_eq!(out, [7; 400]);
    }
}

#[test]
fn writers_refuse_numbers_that_do_not_fit_their_fields() {
    for (write, numbers) in writers() {
        let mut out = [7; 400];
        for index in 3..numbers.len() {
            for number in [i64::MIN, -(1 << 31) - 1, 1 << 32, i64::MAX] {
                let mut changed = numbers.clone();
                changed[index] = number;
                assert_eq!(write(&changed, &mut out), Err(Refusal::Numbers), "{index}");
            }
        }
        assert_eq!(out, [7; 400]);
    }
    let mut out = [7; 400];
    for (index, number) in [(4, 65_536), (4, -1), (52, 256), (52, -1), (58, 1 << 31), (3, -1)] {
        let mut changed = case_numbers();
        changed[index] = number;
        assert_eq!(write_case(&changed, &mut out), Err(Refusal::Numbers), "{index}");
    }
}

#[test]
fn a_case_to_be_written_meets_5_6_and_7() {
    let mut out = [7; 400];
    let mut numbers = case_numbers();
    numbers[52 + 9] = 1;
    assert_eq!(write_case(&numbers, &mut out), Err(Refusal::LimitPair));
    numbers[17] = 1;
    assert_eq!(write_case(&numbers, &mut out), Err(Refusal::StepRule));
    numbers[3] = 128_000_001;
    assert_eq!(write_case(&numbers, &mut out), Err(Refusal::FieldRange));
    numbers[94] = i64::MAX;
    assert_eq!(write_case(&numbers, &mut out), Err(Refusal::Numbers));
    assert_eq!(out, [7; 400]);
}

#[test]
fn a_writer_short_of_room_writes_nothing_and_one_with_room_no_more() {
    for (write, numbers) in writers() {
        let mut out = [7; 400];
        let size = write(&numbers, &mut out).expect("fits");
        assert!(out[size..].iter().all(|byte| *byte == 7));
        let mut short = vec![7; size - 1];
        assert_eq!(write(&numbers, &mut short), Err(Refusal::BufferTooShort));
        assert!(short.iter().all(|byte| *byte == 7));
        let mut exact = vec![7; size];
        assert_eq!(write(&numbers, &mut exact), Ok(size));
        assert_eq!(exact, out[..size]);
    }
}
