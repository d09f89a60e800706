//! Holds identification headers of ambisonics, families 2 and 3, to RFC 8486 and the rules in
//! docs/PROMISES.md: read, written and opened part way with, and the matrix that family 3 has.

use embulgri_tests::calls::{check_head, found_head};
use embulgri_tests::feed_calls::Feeder;
use embulgri_tests::head::{
    encode, Head, AMBISONICS, BAD_HEAD, BAD_MAPPING, CHANNELS, COUPLED, FAMILY, MATRIX, PLACES,
    STREAMS, TABLE, UNFIT_FIELDS, VERSION,
};
use embulgri_tests::head_inputs::{
    legal_set, matrix_length, with_matrix, with_table, AMBISONIC, COUNTS,
};
use embulgri_tests::head_matrix::{Matrix, NO_SUCH_ENTRY};
use embulgri_tests::random::Random;
use embulgri_tests::tags::LONGEST;
use embulgri_tests::tally::Tally;
use embulgri_tests::writing::{assert_same_bytes, check_writing, written, Request};

/// Numbers of channels where every two counts are tried: none, one, and those where the longest
/// header has more than 255 decoded channels, just below as many, and about half of them.
const CHANNELS_TRIED: [usize; 7] = [0, 1, 62, 121, 198, 227, 255];

/// The answers that reading a header can give.
const ANSWERS: [u32; 3] = [0, BAD_HEAD, BAD_MAPPING];

fn head_of(random: &mut Random, family: u64, channels: usize, counts: (usize, usize)) -> Head {
    match family {
        MATRIX => with_matrix(random, channels, counts),
        _ => with_table(random, family, channels, counts),
    }
}

fn has_legal_counts((streams, coupled): (usize, usize)) -> bool {
    streams > 0 && coupled <= streams && streams + coupled <= 255
}

/// What is told of a header of the right length.
fn answer(family: u64, channels: usize, counts: (usize, usize)) -> u32 {
    if family == MATRIX && TABLE + matrix_length(channels, counts) > LONGEST {
        BAD_HEAD
    } else if AMBISONIC.contains(&channels) && has_legal_counts(counts) {
        0
    } else {
        BAD_MAPPING
    }
}

/// Reads a header, writes it and opens a reader part way with it. What is read is written back as the
/// same bytes, and what is written is read back as the same fields, mapping and matrix.
fn check_all(head: &Head, answer: u32, case: &str) {
    let bytes = encode(head);
    let told = check_head(&bytes, case);
    assert_eq!(told.as_ref().err().unwrap_or(&0), &answer, "{case}");
    let unfit = if answer == 0 { 0 } else { UNFIT_FIELDS };
    assert_eq!(check_writing(&Request::exact(head), case), unfit, "{case}");
    assert_eq!(Feeder::started().open(head, case), unfit, "{case}");
    if answer == 0 {
        assert_same_bytes(&written(&found_head(&bytes)), &bytes, case);
        assert_eq!(&found_head(&written(head)), head, "{case}");
    }
}

#[test]
fn every_number_of_channels_is_read_written_and_opened_as_the_rules_say() {
    let mut random = Random::of_run(121);
    let mut tally = Tally::default();
    for family in [AMBISONICS, MATRIX] {
        for channels in 0..=PLACES {
            for counts in [(1, 0), (2, 1), (68, 67), (154, 1), (255, 0), (0, 0), (1, 2)] {
                let head = head_of(&mut random, family, channels, counts);
                let answer = answer(family, channels, counts);
                let case = format!("family {family}, {channels} channels, {counts:?}");
                check_all(&head, answer, &case);
                tally.add(answer);
            }
        }
    }
    tally.print("headers of ambisonics of every number of channels");
    tally.has_all(&ANSWERS);
}

#[test]
fn the_longest_matrices_of_each_number_of_channels_are_read_written_and_opened() {
    let mut random = Random::of_run(122);
    let mut longest = 0;
    for channels in AMBISONIC {
        let most = ((LONGEST - TABLE) / (2 * channels)).min(254);
        for decoded in most - 1..=most + 2 {
            for streams in [decoded.min(255), decoded - 1, decoded.div_ceil(2)] {
                let counts = (streams, decoded - streams);
                let head = with_matrix(&mut random, channels, counts);
                let answer = answer(MATRIX, channels, counts);
                check_all(&head, answer, &format!("{channels} channels, {counts:?}"));
                if answer == 0 {
                    longest = longest.max(head.length());
                }
            }
        }
    }
    assert_eq!(longest, 61_401);
}

#[test]
fn every_two_counts_of_a_matrix_are_read_by_the_length_first() {
    let mut bytes = Random::of_run(123).bytes(TABLE + matrix_length(255, (255, 255)) + 1);
    bytes[..VERSION].copy_from_slice(b"OpusHead");
    bytes[FAMILY] = MATRIX as u8;
    let mut tally = Tally::default();
    for channels in CHANNELS_TRIED {
        bytes[CHANNELS] = channels as u8;
        for counts in (0..=255).flat_map(|streams| (0..=255).map(move |c| (streams, c))) {
            bytes[STREAMS] = counts.0 as u8;
            bytes[COUPLED] = counts.1 as u8;
            let exact = TABLE + matrix_length(channels, counts);
            let right = answer(MATRIX, channels, counts);
            for (version, length, answer) in [
                (1, exact - 1, BAD_HEAD),
                (1, exact, right),
                (1, exact + 1, BAD_HEAD),
                (2, exact - 1, BAD_HEAD),
                (2, exact, right),
                (2, exact + 1, right),
            ] {
                bytes[VERSION] = version;
                let told = check_head(&bytes[..length], "counts").err().unwrap_or(0);
                assert_eq!(told, answer, "{length} bytes, {channels} and {counts:?}");
                tally.add(told);
            }
        }
    }
    tally.print("headers with a matrix of every two counts");
    tally.has_all(&ANSWERS);
}

#[test]
fn every_two_counts_of_a_matrix_are_opened_as_the_rules_say() {
    let mut random = Random::of_run(124);
    let mut feeder = Feeder::started();
    let mut tally = Tally::default();
    for channels in CHANNELS_TRIED {
        let mut head = with_matrix(&mut random, channels, (0, 0));
        for counts in (0..=255).flat_map(|streams| (0..=255).map(move |c| (streams, c))) {
            head.streams = counts.0 as u64;
            head.coupled = counts.1 as u64;
            let unfit = match answer(MATRIX, channels, counts) {
                0 => 0,
                _ => UNFIT_FIELDS,
            };
            assert_eq!(feeder.open(&head, "counts"), unfit, "{head:?}");
            tally.add(unfit);
        }
    }
    tally.print("readers opened by a matrix of every two counts");
    tally.has_all(&[0, UNFIT_FIELDS]);
}

#[test]
fn the_length_of_a_matrix_is_told_before_its_counts_and_channels() {
    let mut random = Random::of_run(125);
    let wrong = [(4, (200, 56)), (4, (255, 255)), (1, (1, 2)), (4, (0, 1))];
    let empty = [(4, (0, 0)), (0, (3, 1)), (0, (0, 0)), (0, (255, 255))];
    for (channels, counts) in wrong.into_iter().chain(empty).chain([(2, (1, 0))]) {
        let mut head = with_matrix(&mut random, channels, counts);
        for version in 0..=15 {
            head.version = version;
            let right = encode(&head);
            let long = [&right[..], &[0]].concat();
            let told = if version < 2 { BAD_HEAD } else { BAD_MAPPING };
            let short = &right[..right.len() - 1];
            assert_eq!(check_head(&right, "right"), Err(BAD_MAPPING), "{head:?}");
            assert_eq!(check_head(short, "short"), Err(BAD_HEAD), "{head:?}");
            assert_eq!(check_head(&long, "long"), Err(told), "{head:?}");
        }
    }
}

/// Numbers of entries that there are not: the first ones after the last, those whose place wraps in
/// 64 bits to that of an entry or of a field before it, and others that narrower numbers cannot hold.
fn past(count: u64) -> impl Iterator<Item = u64> {
    let wrapped = (1 << 63) - 12..(1 << 63) + count.min(20);
    let wide = [16, 31, 32, 33, 62, 63].into_iter();
    (count..count + 200)
        .chain(wrapped)
        .chain(wide.flat_map(|bit| [(1 << bit) - 1, 1 << bit, (1 << bit) + 1]))
        .chain(u64::MAX - 12..=u64::MAX)
        .filter(move |&number| number >= count)
}

#[test]
fn every_entry_of_a_matrix_is_told_and_no_other() {
    let mut random = Random::of_run(126);
    let mut entries = 0;
    for (channels, counts) in [
        (1, (1, 0)),
        (3, (1, 1)),
        (4, (2, 2)),
        (11, (255, 0)),
        (25, (13, 12)),
        (227, (68, 67)),
        (198, (155, 0)),
    ] {
        let mut head = with_matrix(&mut random, channels, counts);
        for (place, value) in head.matrix.chunks_mut(2).zip([0x8000_u16, 0x7fff, 0xffff]) {
            place.copy_from_slice(&value.to_le_bytes());
        }
        for version in [0, 1, 2, 15] {
            head.version = version;
            let mut bytes = encode(&head);
            if version > 1 {
                bytes.extend(random.bytes(300));
            }
            let told = Ok(head.clone());
            let matrix = Matrix::checked(&bytes, &told, "entries");
            let count = matrix.count();
            assert_eq!(count as usize, (counts.0 + counts.1) * channels);
            assert!((0..count).all(|number| matrix.entry(number, "one") == 0));
            assert!(past(count).all(|number| matrix.entry(number, "past") == NO_SUCH_ENTRY));
            entries += count;
        }
    }
    assert_eq!(entries, 4 * (1 + 6 + 16 + 2_805 + 625 + 30_645 + 30_690));
}

#[test]
fn no_entry_is_told_of_other_families_and_of_what_is_no_header() {
    for mut head in legal_set(&mut Random::of_run(127)) {
        if head.family == MATRIX {
            continue;
        }
        for (version, mapping) in [(1, true), (2, true), (15, true), (2, false), (16, true)] {
            head.version = version;
            let mut bytes = [encode(&head), vec![1; if version > 1 { 300 } else { 0 }]].concat();
            let is_read = mapping && version < 16;
            if !mapping {
                bytes[FAMILY] = 4;
            }
            let told = check_head(&bytes, "no matrix");
            assert_eq!(told.is_ok(), is_read);
            let number = told.as_ref().err().copied().unwrap_or(NO_SUCH_ENTRY);
            let matrix = Matrix::checked(&bytes, &told, "no matrix");
            let mut numbers = (0..300).chain(past(0));
            assert!(numbers.all(|entry| matrix.entry(entry, "no matrix") == number));
        }
    }
}

#[test]
fn a_matrix_is_written_at_the_length_that_the_fields_ask_for_and_no_other() {
    let mut random = Random::of_run(128);
    let mut tally = Tally::default();
    let matrices = COUNTS.map(|counts| with_matrix(&mut random, 4, counts));
    for right in legal_set(&mut random).into_iter().chain(matrices) {
        let length = right.matrix.len();
        let asked = 2 * (right.streams + right.coupled) * right.channels;
        for other in (0..=length + 300).chain([asked as usize, 65_536 + length]) {
            let mut head = right.clone();
            head.matrix.resize(other, 0x5a);
            let legal = other == length;
            for (room, told) in [(head.length(), 0), (0, 22), (LONGEST + 600, 0)] {
                let request = Request {
                    room,
                    ..Request::exact(&head)
                };
                let answer = check_writing(&request, other);
                let told = if legal { told } else { UNFIT_FIELDS };
                assert_eq!(answer, told, "{other} bytes for {length}");
                tally.add(answer);
            }
        }
    }
    tally.print("headers written with a matrix of every length");
}

#[test]
fn no_place_beside_a_matrix_is_anything_but_zero() {
    let mut random = Random::of_run(129);
    for (channels, counts) in [(1, (1, 0)), (4, (2, 2)), (227, (68, 67))] {
        let right = with_matrix(&mut random, channels, counts);
        check_all(&right, 0, "all zero");
        for place in 0..PLACES {
            for value in [1, 128, 255] {
                let mut head = right.clone();
                head.mapping[place] = value;
                let answer = check_writing(&Request::exact(&head), place);
                assert_eq!(answer, UNFIT_FIELDS, "place {place}");
                assert_eq!(Feeder::started().open(&head, place), UNFIT_FIELDS);
            }
        }
    }
}
