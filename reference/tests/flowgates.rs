//! A case has at most 12 flowgates (request 9). A file with 13 to 16, which was
//! taken before, is refused as one with 17 is. The figures stand here as the
//! paper has them, and not by the constant of the reference.

mod common;

use common::{check, program_text, refused};
use nostwier_reference::damage::too_many_flowgates;
use nostwier_reference::generate::{pair_of_counts, varied_pair, Pair};
use nostwier_reference::layout::{Counts, Version, MOST_FLOWGATES};
use nostwier_reference::random::Random;
use nostwier_reference::{
    charges, check_case, check_certificate, prices, program, read_case, read_certificate,
    write_case, write_certificate, Failure, Refusal,
};

const TOO_MANY: [usize; 6] = [13, 14, 15, 16, 17, 255];

/// An accepted pair of 12 flowgates, laid out with so many.
fn laid_out(flowgates: usize) -> Pair {
    let counts = Counts { resources: 2, zones: 1, flowgates: 12 };
    pair_of_counts(&mut Random::new(81), Version::ONE, counts).with_flowgates(flowgates)
}

/// Every number of the two files, for the writers.
fn numbers(pair: &Pair) -> (Vec<i64>, Vec<i64>) {
    let Counts { resources, zones, flowgates } = pair.case.counts;
    let counts = [resources, zones, flowgates].map(|count| count as i64);
    let with_counts = |rest: Vec<i64>| [&counts[..], &rest].concat();
    (with_counts(pair.case.numbers()), with_counts(pair.certificate.numbers()))
}

/// What each of the eight operations answers, in their order: how much it
/// wrote, or the refusal. A refusal must leave its buffer as it was.
fn answers(pair: &Pair) -> [Result<usize, Failure>; 8] {
    let (case, certificate) = (pair.case_file(), pair.certificate_file());
    let (case_numbers, certificate_numbers) = numbers(pair);
    let into_numbers = |call: &dyn Fn(&mut [i64]) -> Result<usize, Failure>| {
        let mut buffer = vec![-7; 20_000];
        let answer = call(&mut buffer);
        assert!(answer.is_ok() || buffer.iter().all(|number| *number == -7));
        answer
    };
    let into_bytes = |call: &dyn Fn(&mut [u8]) -> Result<usize, Refusal>, file: &[u8]| {
        let mut buffer = vec![77; 50_000];
        let answer = call(&mut buffer);
        let written = answer.unwrap_or(0);
        assert!(written == 0 || buffer[..written] == *file);
        assert!(buffer[written..].iter().all(|byte| *byte == 77));
        answer.map_err(Failure::from)
    };
    [
        check_case(&case).map(|_| 0).map_err(Failure::from),
        check_certificate(&case, &certificate).map(|_| 0),
        into_numbers(&|out| prices(&case, &certificate, out)),
        into_numbers(&|out| charges(&case, &certificate, out)),
        into_numbers(&|out| Ok(read_case(&case, out)?)),
        into_numbers(&|out| Ok(read_certificate(&certificate, out)?)),
        into_bytes(&|out| write_case(&case_numbers, out), &case),
        into_bytes(&|out| write_certificate(&certificate_numbers, out), &certificate),
    ]
}

#[test]
fn every_operation_takes_twelve() {
    // By hand, for R 2, Z 1, F 12: prices 2 + 4; charges 21 + 4 + 12 + 38;
    // numbers 48 + 4 + 86 + 12 * 3 and 12 + 4 + 12 + 20; bytes
    // 170 + 16 + 308 + 12 * 8 and 44 + 16 + 48 + 80.
    let expected = [0, 0, 6, 75, 174, 48, 590, 188].map(Ok);
    assert_eq!(answers(&laid_out(12)), expected);
    assert_eq!(MOST_FLOWGATES, 12);
}

#[test]
fn every_operation_refuses_more_by_three() {
    for flowgates in TOO_MANY {
        let expected = [Refusal::Counts; 8].map(refused);
        assert_eq!(answers(&laid_out(flowgates)), expected, "{flowgates} flowgates");
        assert_eq!(program_text(&laid_out(flowgates)), "refused 3\n", "{flowgates} flowgates");
    }
}

#[test]
fn the_largest_and_the_smallest_case_end_at_twelve() {
    for (resources, zones) in [(1, 1), (64, 8)] {
        let counts = Counts { resources, zones, flowgates: 12 };
        let pair = varied_pair(&mut Random::new(82), Version::ONE, counts);
        assert!(answers(&pair).iter().all(Result::is_ok), "R {resources}");
        for flowgates in [13, 16, 17] {
            let expected = [Refusal::Counts; 8].map(refused);
            assert_eq!(answers(&pair.with_flowgates(flowgates)), expected, "R {resources}");
        }
    }
}

#[test]
fn a_certificate_of_more_is_ten_beside_a_valid_case() {
    for own in [0, 5, 12] {
        let case = laid_out(own).case_file();
        for flowgates in TOO_MANY {
            let certificate = laid_out(flowgates).certificate_file();
            let expected = refused(Refusal::CertificateCounts);
            assert_eq!(check_certificate(&case, &certificate).map(|_| 0), expected);
            let mut buffer = [-7; 100];
            assert_eq!(prices(&case, &certificate, &mut buffer), expected);
            assert_eq!(charges(&case, &certificate, &mut buffer), expected);
            assert_eq!(buffer, [-7; 100]);
            let input = [&case[..], &certificate].concat();
            assert_eq!(program::whole_text(&input), "refused 10\n");
        }
    }
}

#[test]
fn a_case_of_more_is_three_whatever_the_certificate() {
    let certificates = [0, 12, 13, 16, 17].map(|own| laid_out(own).certificate_file());
    for flowgates in TOO_MANY {
        let case = laid_out(flowgates).case_file();
        for certificate in certificates.iter().chain([&Vec::new(), &case]) {
            let expected = refused(Refusal::Counts);
            assert_eq!(check_certificate(&case, certificate).map(|_| 0), expected);
            assert_eq!(prices(&case, certificate, &mut []), expected);
            assert_eq!(charges(&case, certificate, &mut []), expected);
        }
    }
}

/// Another size and a field out of range come later, length and version earlier.
#[test]
fn three_keeps_its_place_when_files_are_read() {
    let unknown = Version::NEWEST.byte() + 1;
    for flowgates in TOO_MANY {
        let mut case = laid_out(12).case_file();
        case[7] = flowgates as u8;
        case[8] = 255;
        assert_eq!(read_case(&case, &mut []), Err(Refusal::Counts));
        case[4] = unknown;
        assert_eq!(read_case(&case, &mut []), Err(Refusal::CaseVersion));
        case.pop();
        assert_eq!(read_case(&case, &mut []), Err(Refusal::CaseLength));

        let mut certificate = laid_out(12).certificate_file();
        certificate[7] = flowgates as u8;
        assert_eq!(read_certificate(&certificate, &mut []), Err(Refusal::Counts));
        certificate[4] = unknown;
        assert_eq!(read_certificate(&certificate, &mut []), Err(Refusal::CertificateVersion));
        certificate.pop();
        assert_eq!(read_certificate(&certificate, &mut []), Err(Refusal::CertificateLength));
    }
}

#[test]
fn writers_refuse_more_by_three_whatever_else_is_wrong() {
    for flowgates in TOO_MANY {
        let (case, certificate) = numbers(&laid_out(flowgates));
        for (write, numbers) in [
            (write_case as fn(&[i64], &mut [u8]) -> Result<usize, Refusal>, case),
            (write_certificate, certificate),
        ] {
            let longer = [&numbers[..], &[0]].concat();
            let mut unfit = numbers.clone();
            unfit[4] = i64::MIN;
            for list in [&numbers, &numbers[..3], &numbers[..numbers.len() - 1], &longer, &unfit] {
                assert_eq!(write(list, &mut []), Err(Refusal::Counts));
            }
            assert_eq!(write(&numbers[..2], &mut []), Err(Refusal::Numbers));
        }
    }
}

#[test]
fn a_pair_laid_out_with_other_flowgates_stays_accepted_up_to_twelve() {
    let mut random = Random::new(83);
    for own in [0, 1, 5, 12] {
        let counts = Counts { resources: 3, zones: 2, flowgates: own };
        let pair = varied_pair(&mut random, Version::ONE, counts);
        for flowgates in 0..=12 {
            let other = pair.with_flowgates(flowgates);
            assert!(check(&other).is_ok(), "{own} flowgates as {flowgates}");
            assert_eq!(other.case.flowgates.len(), flowgates);
            for (index, flowgate) in other.case.flowgates.iter().enumerate() {
                let expected = pair.case.flowgates.get(index % own.max(1));
                assert!(expected.is_none_or(|expected| flowgate == expected));
            }
        }
        let same = pair.with_flowgates(own);
        assert_eq!(same.case_file(), pair.case_file());
        assert_eq!(same.certificate_file(), pair.certificate_file());
    }
}

#[test]
fn damage_lays_out_files_of_too_many_flowgates() {
    let pair = laid_out(12);
    let mut met = Vec::new();
    for damaged in too_many_flowgates(&pair) {
        let answer = check_certificate(&damaged.case, &damaged.certificate);
        assert_eq!(answer, refused(damaged.refusal), "{}", damaged.what);
        met.push((damaged.refusal.number(), damaged.case[7], damaged.certificate[7]));
    }
    let expected = [13, 16, 17, 255].map(|many| [(3, many, many), (3, many, 12), (10, 12, many)]);
    assert_eq!(met, expected.concat());
}
