//! The two files of each known version: sizes, names of fields, the byte that
//! tells the version, and what is counted of a version. Figures are those of the
//! paper.

mod common;

use common::refused;
use nostwier_reference::accounts::listed;
use nostwier_reference::case::Case;
use nostwier_reference::certificate::Certificate;
use nostwier_reference::generate::{pair_of_counts, Pair};
use nostwier_reference::layout::{
    announced_version, case_fields, certificate_fields, file_size, read_fields, Counts, Field,
    FieldsOf, Part, Version, SHORTEST_CASE, SHORTEST_CERTIFICATE,
};
use nostwier_reference::random::Random;
use nostwier_reference::rows::{
    index_of, index_of_cleared, quantities, row_names, rows, Quantity, RowName,
};
use nostwier_reference::standing::standings;
use nostwier_reference::{
    check_case, check_certificate, read_case, read_certificate, worked, Refusal,
};
use std::collections::BTreeSet;

const FILES: [FieldsOf; 2] = [case_fields, certificate_fields];

fn counts(resources: usize, zones: usize, flowgates: usize) -> Counts {
    Counts { resources, zones, flowgates }
}

/// By hand, of version 1: 170 + 16 Z + 154 R + F (4 + 2 R) bytes of a case, and
/// 44 + 16 Z + 4 F + 40 R of a certificate; 48 + 4 Z + 43 R + F (R + 1) numbers of
/// a case, and 12 + 4 Z + F + 10 R of a certificate.
#[test]
fn the_sizes_of_version_one() {
    for (counts, bytes, numbers) in [
        (counts(1, 1, 0), [340, 100], [95, 26]),
        (counts(1, 8, 12), [524, 260], [147, 66]),
        (counts(2, 1, 12), [590, 188], [174, 48]),
        (counts(5, 3, 2), [1_016, 300], [287, 76]),
        (counts(64, 8, 0), [10_154, 2_732], [2_832, 684]),
        (counts(64, 8, 12), [11_738, 2_780], [3_612, 696]),
        // Refused for their flowgates, and laid out all the same.
        (counts(64, 8, 16), [12_266, 2_796], [3_872, 700]),
        (counts(64, 8, 255), [43_814, 3_752], [19_407, 939]),
    ] {
        let fields = FILES.map(|of| of(Version::ONE, counts));
        assert_eq!(fields.each_ref().map(|fields| file_size(fields)), bytes, "{counts:?}");
        assert_eq!(fields.each_ref().map(|fields| 3 + fields.len()), numbers, "{counts:?}");
        if counts.flowgates <= 12 {
            let pair = pair_of_counts(&mut Random::new(91), Version::ONE, counts);
            let files = [pair.case_file(), pair.certificate_file()];
            assert_eq!(files.map(|file| file.len()), bytes, "{counts:?}");
        }
    }
}

/// By hand, of version 1: 5 + 4 Z + F + 5 R rows, 4 + 5 R places, 21 + 4 Z + F +
/// 19 R charges and R + 4 Z prices.
#[test]
fn the_counts_of_version_one() {
    for (counts, rows, places, charges, prices) in [
        (counts(1, 1, 0), 14, 9, 44, 5),
        (counts(1, 8, 12), 54, 9, 84, 33),
        (counts(2, 1, 12), 31, 14, 75, 6),
        (counts(5, 3, 2), 44, 29, 130, 17),
        (counts(64, 8, 0), 357, 324, 1_269, 96),
        (counts(64, 8, 12), 369, 324, 1_281, 96),
    ] {
        assert_eq!(counts.row_count(Version::ONE), rows, "{counts:?}");
        assert_eq!(counts.place_count(Version::ONE), places, "{counts:?}");
        assert_eq!(counts.charge_count(Version::ONE), charges, "{counts:?}");
        assert_eq!(counts.price_count(), prices, "{counts:?}");
    }
}

/// A certificate has a field for each place and a price for each row, and what is
/// worked out of a case has as many items as are counted.
#[test]
fn counts_are_those_of_the_lists_in_every_version() {
    for version in Version::ALL {
        for counts in [counts(1, 1, 0), counts(3, 2, 2), counts(64, 8, 12)] {
            let fields = certificate_fields(version, counts);
            let of_kind = |quantity| fields.iter().filter(|it| it.quantity == quantity).count();
            assert_eq!(of_kind(true), counts.place_count(version), "{version:?} {counts:?}");
            assert_eq!(of_kind(false), counts.row_count(version), "{version:?} {counts:?}");

            let Pair { case, certificate } = pair_of_counts(&mut Random::new(92), version, counts);
            let standings = standings(&case);
            let rows = rows(&case, &standings);
            let charges = rows.len() + listed(&case, &standings).len();
            assert_eq!(rows.len(), counts.row_count(version), "{version:?} {counts:?}");
            assert_eq!(charges, counts.charge_count(version), "{version:?} {counts:?}");
            assert_eq!(certificate.amounts.len(), counts.place_count(version));
            assert_eq!(certificate.row_prices.len(), counts.row_count(version));
        }
    }
}

#[test]
fn every_quantity_and_row_has_one_place_in_every_version() {
    for version in Version::ALL {
        let counts = counts(3, 2, 2);
        for (place, quantity) in quantities(version, counts).into_iter().enumerate() {
            let index = match quantity {
                Quantity::Cleared(curve) => index_of_cleared(version, curve),
                Quantity::Of(resource, product) => index_of(version, resource, product),
            };
            assert_eq!(index, place, "{version:?} {quantity:?}");
        }
        let names = row_names(version, counts);
        assert_eq!(names[0], RowName::Demand);
        for (index, name) in names.iter().enumerate() {
            assert_eq!(names.iter().position(|other| other == name), Some(index), "{name:?}");
        }
    }
}

fn bytes_of(fields: &[Field], part: Part, of: usize) -> usize {
    let its_fields = fields.iter().filter(|field| (field.part, field.of) == (part, of));
    its_fields.map(|field| field.width.size()).sum()
}

#[test]
fn the_parts_of_version_one() {
    let [case, certificate] = FILES.map(|of| of(Version::ONE, counts(3, 2, 2)));
    for of in 1..=2 {
        let of_case = [Part::Zone, Part::Resource, Part::Flowgate];
        assert_eq!(of_case.map(|part| bytes_of(&case, part, of)), [16, 154, 4 + 2 * 3]);
        assert_eq!(of_case.map(|part| bytes_of(&certificate, part, of)), [16, 40, 4]);
    }
    assert_eq!(8 + bytes_of(&case, Part::Head, 0), 170);
    assert_eq!(8 + bytes_of(&certificate, Part::Head, 0), 44);
    assert_eq!((SHORTEST_CASE, SHORTEST_CERTIFICATE), (170, 44));
}

#[test]
fn names_are_unique_within_a_part_of_every_version() {
    for version in Version::ALL {
        for of in FILES {
            let mut seen = BTreeSet::new();
            for field in of(version, counts(3, 2, 2)) {
                let place = (format!("{:?}", field.part), field.of, field.name, field.index);
                assert!(seen.insert(place), "{version:?}: {field:?}");
            }
        }
    }
}

/// A number within its range for each field, no two alike unless a range is short.
fn telling_numbers(fields: &[Field]) -> Vec<i64> {
    let number = |(index, field): (usize, &Field)| {
        field.least + index as i64 % (field.most - field.least + 1)
    };
    fields.iter().enumerate().map(number).collect()
}

#[test]
fn what_is_read_by_name_is_written_where_it_was() {
    for version in Version::ALL {
        for counts in [counts(1, 1, 0), counts(1, 1, 1), counts(3, 2, 2), counts(64, 8, 12)] {
            let [case_fields, certificate_fields] = FILES.map(|of| of(version, counts));
            let case_numbers = telling_numbers(&case_fields);
            let certificate_numbers = telling_numbers(&certificate_fields);
            let case = Case::from_numbers(version, counts, &case_numbers);
            let certificate = Certificate::from_numbers(version, counts, &certificate_numbers);
            assert_eq!(case.numbers(), case_numbers, "{version:?} {counts:?}");
            assert_eq!(certificate.numbers(), certificate_numbers, "{version:?} {counts:?}");

            let pair = Pair { case, certificate };
            let files = [pair.case_file(), pair.certificate_file()];
            assert_eq!(files.each_ref().map(|file| announced_version(file)), [Some(version); 2]);
            assert_eq!(read_fields(&files[0], &case_fields), case_numbers);
            assert_eq!(read_fields(&files[1], &certificate_fields), certificate_numbers);
        }
    }
}

/// Byte 4 tells the version; what is not known is 2 or 9, whatever lies behind it.
#[test]
fn unknown_versions_are_refused_by_2_and_9() {
    let pair = worked::pair();
    let with_version = |file: Vec<u8>, byte: u8| [&file[..4], &[byte], &file[5..]].concat();
    let mut known = Vec::new();
    for byte in 0..=u8::MAX {
        let case = with_version(pair.case_file(), byte);
        let certificate = with_version(pair.certificate_file(), byte);
        if Version::of(byte).is_some() {
            known.push(byte);
            continue;
        }
        assert_eq!(check_case(&case), Err(Refusal::CaseVersion), "{byte}");
        assert_eq!(read_case(&case, &mut []), Err(Refusal::CaseVersion), "{byte}");
        assert_eq!(check_certificate(&case, &certificate), refused(Refusal::CaseVersion), "{byte}");
        let answer = check_certificate(&pair.case_file(), &certificate);
        assert_eq!(answer, refused(Refusal::CertificateVersion), "{byte}");
        let answer = read_certificate(&certificate, &mut []);
        assert_eq!(answer, Err(Refusal::CertificateVersion), "{byte}");
    }
    assert_eq!(known, [1]);
    assert_eq!(Version::ALL.map(Version::byte).as_slice(), known, "from the oldest on");
}
