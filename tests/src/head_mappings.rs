//! The ways to make the channel mapping of an identification header wrong, its length being right.

use crate::head::{Head, AMBISONICS, BAD_MAPPING, PLACES, TABLE, UNFIT_FIELDS};
use crate::head_inputs::{
    head_with_matrix, head_with_table, matrix_length, with_matrix, with_table, without_table,
    AMBISONIC,
};
use crate::inputs::{change, Change};
use crate::ogg::NO_ROOM;
use crate::random::Random;
use crate::tags::LONGEST;

/// What comes of a legal header that is written is up to the room.
pub const LEGAL: Change<Head> = change("a legal header", &[0, NO_ROOM], |_, _| ());

/// What reading and writing answer to a wrong channel mapping.
const WRONG: &[u32] = &[BAD_MAPPING, UNFIT_FIELDS];

/// The ways to make a channel mapping wrong by one rule only, where it can be.
pub const WRONG_MAPPINGS: &[Change<Head>] = &[
    change("family 0 of no channels", WRONG, |random, head| {
        *head = without_table(random, 0)
    }),
    change("family 0 of 3 channels", WRONG, |random, head| {
        *head = without_table(random, 3)
    }),
    change("family 0 of 3 to 255 channels", WRONG, |random, head| {
        let channels = random.within(3..=PLACES);
        *head = without_table(random, channels)
    }),
    change("a table of no channels", WRONG, |random, head| {
        let family = *random.pick(&[1, AMBISONICS, 255]);
        *head = with_table(random, family, 0, (1, 1))
    }),
    change("family 1 of 9 channels", WRONG, |random, head| {
        *head = with_table(random, 1, 9, (5, 4))
    }),
    change("family 1 of 9 to 255 channels", WRONG, |random, head| {
        let channels = random.within(9..=PLACES);
        *head = with_table(random, 1, channels, (5, 4))
    }),
    change(
        "family 2 of channels next to those of ambisonics",
        WRONG,
        |random, head| {
            let channels = next_to_ambisonic(random);
            *head = with_table(random, AMBISONICS, channels, (3, 2))
        },
    ),
    change("family 2 of other channels", WRONG, |random, head| {
        let channels = not_ambisonic(random);
        *head = with_table(random, AMBISONICS, channels, (3, 2))
    }),
    change(
        "a matrix of channels next to those of ambisonics",
        WRONG,
        |random, head| {
            let channels = next_to_ambisonic(random);
            *head = with_matrix(random, channels, (3, 2))
        },
    ),
    change("a matrix of other channels", WRONG, |random, head| {
        let channels = not_ambisonic(random);
        *head = with_matrix(random, channels, (3, 2))
    }),
    change("a matrix of no channels", WRONG, |random, head| {
        let counts = (random.below(256), random.below(256));
        *head = with_matrix(random, 0, counts)
    }),
    change("family 4", WRONG, |random, head| {
        *head = head_with_table(random);
        head.family = 4
    }),
    change("another unknown family", WRONG, |random, head| {
        *head = head_with_table(random);
        head.family = random.within(4..=254) as u64
    }),
    change("no streams", WRONG, |random, head| {
        other_counts(random, head, (0, 0))
    }),
    change("no streams and a coupled one", WRONG, |random, head| {
        other_counts(random, head, (0, 1))
    }),
    change(
        "one coupled stream more than streams",
        WRONG,
        |random, head| {
            let streams = random.within(1..=127);
            other_counts(random, head, (streams, streams + 1))
        },
    ),
    change(
        "more coupled streams than streams",
        WRONG,
        |random, head| {
            let streams = random.within(1..=127);
            let coupled = random.within(streams + 1..=255 - streams);
            other_counts(random, head, (streams, coupled))
        },
    ),
    change("counts of 256 in all", WRONG, |random, head| {
        let streams = random.within(128..=255);
        other_counts(random, head, (streams, 256 - streams))
    }),
    change("counts of 257 to 510 in all", WRONG, |random, head| {
        let streams = random.within(129..=255);
        let coupled = random.within(257 - streams..=streams);
        other_counts(random, head, (streams, coupled))
    }),
    change("an index one too high", WRONG, |random, head| {
        let decoded = few_decoded(random, head);
        *any_index(random, head) = decoded
    }),
    change("an index too high", WRONG, |random, head| {
        let decoded = few_decoded(random, head);
        *any_index(random, head) = random.within(decoded.into()..=254) as u8
    }),
    change("an index of 254", WRONG, |random, head| {
        few_decoded(random, head);
        *any_index(random, head) = 254
    }),
];

/// Takes another table, or another matrix, with these counts.
fn other_counts(random: &mut Random, head: &mut Head, counts: (usize, usize)) {
    *head = match random.one_in(3) {
        true => other_matrix(random, counts),
        false => other_table(random, counts),
    };
}

fn other_table(random: &mut Random, counts: (usize, usize)) -> Head {
    let Head {
        family, channels, ..
    } = head_with_table(random);
    with_table(random, family, channels as usize, counts)
}

/// Another matrix with these counts that is not too long for a header.
fn other_matrix(random: &mut Random, counts: (usize, usize)) -> Head {
    let channels = loop {
        let channels = head_with_matrix(random).channels as usize;
        if TABLE + matrix_length(channels, counts) <= LONGEST {
            break channels;
        }
    };
    with_matrix(random, channels, counts)
}

/// One channel more or less than ambisonics have.
fn next_to_ambisonic(random: &mut Random) -> usize {
    loop {
        let channels = *random.pick(&AMBISONIC);
        let next = *random.pick(&[channels - 1, channels + 1]);
        if next > 0 && !AMBISONIC.contains(&next) {
            return next;
        }
    }
}

fn not_ambisonic(random: &mut Random) -> usize {
    loop {
        let channels = random.within(1..=PLACES);
        if !AMBISONIC.contains(&channels) {
            return channels;
        }
    }
}

/// Takes another table that leaves indices between those of the channels decoded and 255, and gives
/// the first of them.
fn few_decoded(random: &mut Random, head: &mut Head) -> u8 {
    let counts = match random.below(4) {
        0 => (127, 127),
        1 => (254, 0),
        _ => (random.within(8..=100), random.below(8)),
    };
    *head = other_table(random, counts);
    (counts.0 + counts.1) as u8
}

fn any_index<'a>(random: &mut Random, head: &'a mut Head) -> &'a mut u8 {
    &mut head.mapping[random.below(head.channels as usize)]
}
