//! Holds the writing of identification headers to the rules in docs/PROMISES.md: each field, each
//! place of the channel mapping and each length of the output.

use embulgri_tests::head::{Head, PLACES, UNFIT_FIELDS, WIDTHS};
use embulgri_tests::head_inputs::{
    legal_set, with_matrix, with_table, without_table, AMBISONIC, COUNTS,
};
use embulgri_tests::ogg::NO_ROOM;
use embulgri_tests::random::Random;
use embulgri_tests::tally::Tally;
use embulgri_tests::writing::{check_writing, Request};

/// Asks for a header with an output that is long enough and with none, as what is no header is
/// refused first, and counts the answer.
fn write(head: &Head, tally: &mut Tally, legal: bool, case: &str) {
    let exact = Request::exact(head);
    let answer = check_writing(&exact, case);
    tally.add(answer);
    assert_eq!(answer, if legal { 0 } else { UNFIT_FIELDS }, "{case}");
    let nothing = Request { room: 0, ..exact };
    let answer = check_writing(&nothing, case);
    tally.add(answer);
    assert_eq!(answer, if legal { NO_ROOM } else { UNFIT_FIELDS }, "{case}");
}

fn with_field(head: &Head, place: usize, value: u64) -> Head {
    let mut fields = head.fields();
    fields[place] = value;
    head.with_fields(fields)
}

#[test]
fn every_family_and_number_of_channels_is_written_as_the_rules_say() {
    let mut random = Random::of_run(41);
    let mut tally = Tally::default();
    for family in 0..=255 {
        for channels in 0..=PLACES {
            let head = match family {
                0 => without_table(&mut random, channels),
                3 => with_matrix(&mut random, channels, (3, 2)),
                _ => with_table(&mut random, family, channels, (3, 2)),
            };
            let legal = match family {
                0 => (1..=2).contains(&channels),
                1 => (1..=8).contains(&channels),
                2 | 3 => AMBISONIC.contains(&channels),
                _ => family == 255 && channels > 0,
            };
            write(&head, &mut tally, legal, "family and channels");
        }
    }
    tally.print("headers written of every family and number of channels");
}

#[test]
fn every_stream_count_and_coupled_count_is_written_as_the_rules_say() {
    let mut random = Random::of_run(42);
    let mut tally = Tally::default();
    for channels in [1, 2] {
        let short = without_table(&mut random, channels);
        let mut long = with_table(&mut random, 255, channels, (1, 0));
        long.mapping[..channels].fill(255);
        for streams in 0..=255 {
            for coupled in 0..=255 {
                let legal = streams > 0 && coupled <= streams && streams + coupled <= 255;
                let own = (streams, coupled) == (short.streams, short.coupled);
                for (head, legal) in [(&short, own), (&long, legal)] {
                    let head = Head {
                        streams,
                        coupled,
                        ..head.clone()
                    };
                    write(&head, &mut tally, legal, "counts");
                }
            }
        }
    }
    tally.print("headers written of every stream count and coupled count");
}

#[test]
fn every_two_indices_of_family_0_are_written_as_the_rules_say() {
    let mut random = Random::of_run(43);
    let mut tally = Tally::default();
    for channels in [1, 2] {
        let right = without_table(&mut random, channels);
        for first in 0..=255 {
            for second in 0..=255 {
                let mut head = right.clone();
                head.mapping[..2].copy_from_slice(&[first, second]);
                let legal = head.mapping == right.mapping;
                write(&head, &mut tally, legal, "indices of family 0");
            }
        }
    }
    tally.print("headers written of every two indices of family 0");
}

#[test]
fn an_index_at_every_place_is_written_below_the_counts_or_255() {
    let mut random = Random::of_run(44);
    let mut tally = Tally::default();
    let last = [1, 2, 3, 8, 9, 100, 253, 254, 255, 255].map(|channels| (255, channels));
    let ambisonic = [1, 3, 4, 6, 9, 11, 100, 198, 225, 227].map(|channels| (2, channels));
    let counts = COUNTS.into_iter().cycle();
    for (counts, (family, channels)) in counts.zip(last.into_iter().chain(ambisonic)) {
        let decoded = counts.0 + counts.1;
        let head = with_table(&mut random, family, channels, counts);
        for place in 0..channels {
            for index in [0, decoded - 1, decoded, 254, 255] {
                let mut head = head.clone();
                head.mapping[place] = index as u8;
                let legal = index < decoded || index == 255;
                write(&head, &mut tally, legal, "an index");
            }
        }
    }
    tally.print("headers written of an index at its ends");
}

#[test]
fn unused_places_are_zero() {
    let mut tally = Tally::default();
    for head in legal_set(&mut Random::of_run(45)) {
        write(&head, &mut tally, true, "all of them zero");
        for place in head.indices()..PLACES {
            for value in [1, 2, 128, 254, 255] {
                let mut head = head.clone();
                head.mapping[place] = value;
                write(&head, &mut tally, false, "one of them not zero");
            }
        }
    }
    tally.print("headers written of an unused place");
}

#[test]
fn no_field_is_wider_than_in_the_header() {
    let mut tally = Tally::default();
    for head in legal_set(&mut Random::of_run(46)) {
        for (place, width) in (0..).zip(WIDTHS) {
            let right = head.fields()[place];
            for bit in width..64 {
                let wider = [right | 1 << bit, 1 << bit, u64::MAX << bit | right];
                for value in wider {
                    let head = with_field(&head, place, value);
                    write(&head, &mut tally, false, "too wide a field");
                }
            }
            let ends = [
                0,
                1,
                (1 << (width - 1)) - 1,
                1 << (width - 1),
                (1 << width) - 1,
            ];
            for value in ends {
                let head = with_field(&head, place, value);
                // Pre-skip, input rate and output gain take anything; the rest is up to the rules.
                let legal = (2..=4).contains(&place) || head.is_writable();
                write(&head, &mut tally, legal, "a field at its ends");
            }
        }
        for version in 0..=255 {
            let head = with_field(&head, 0, version);
            write(&head, &mut tally, version == 1, "a version");
        }
    }
    tally.print("headers written of a field at its ends and past them");
}

#[test]
fn every_length_of_the_output_is_enough_or_too_short() {
    for head in legal_set(&mut Random::of_run(47)) {
        for room in 0..=head.length() + 300 {
            let request = Request {
                room,
                ..Request::exact(&head)
            };
            let answer = check_writing(&request, "every length");
            let enough = room >= head.length();
            assert_eq!(answer, if enough { 0 } else { NO_ROOM }, "{room} bytes");
        }
    }
}
