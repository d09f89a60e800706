//! The ways to damage the bytes of an identification header before it is read.

use crate::head::{
    encode, length_of, Head, BAD_HEAD, BAD_MAPPING, CHANNELS, COUPLED, FAMILY, MATRIX, PLACES,
    SHORTEST, STREAMS, TABLE, VERSION,
};
use crate::head_inputs::{
    head, head_with_matrix, head_with_table, index, long_matrix, more_bytes, version,
};
use crate::inputs::{change, Change};
use crate::random::Random;

/// What comes of a whole header is up to its channel mapping.
const WHOLE: &[u32] = &[0, BAD_MAPPING];

/// What can come of other bytes.
const ANY: &[u32] = &[0, BAD_HEAD, BAD_MAPPING];

/// The ways to damage the bytes of a header, whatever its channel mapping.
pub const DAMAGES: &[Change<Vec<u8>>] = &[
    change(
        "a bit of the signature flipped",
        &[BAD_HEAD],
        |random, packet| packet[random.below(VERSION)] ^= 1 << random.below(8),
    ),
    change("version 16", &[BAD_HEAD], |_, packet| packet[VERSION] = 16),
    change("a version above 15", &[BAD_HEAD], |random, packet| {
        packet[VERSION] = random.within(16..=255) as u8
    }),
    change("another version", ANY, |random, packet| {
        another_value(random, packet, VERSION)
    }),
    change(
        "the fields in a version that is read",
        WHOLE,
        |random, packet| {
            packet.truncate(fields_length(packet));
            packet[VERSION] = random.within(0..=15) as u8
        },
    ),
    change("another number of channels", ANY, |random, packet| {
        another_value(random, packet, CHANNELS)
    }),
    change("another family", ANY, |random, packet| {
        another_value(random, packet, FAMILY)
    }),
    change("one byte changed", ANY, |random, packet| {
        let place = random.below(packet.len());
        another_value(random, packet, place)
    }),
    change("cut anywhere", &[BAD_HEAD], |random, packet| {
        packet.truncate(random.below(fields_length(packet)))
    }),
    change("one byte too few", &[BAD_HEAD], |_, packet| {
        packet.truncate(fields_length(packet) - 1)
    }),
    change(
        "one byte too many in version 0 or 1",
        &[BAD_HEAD],
        |random, packet| {
            make_exact(random, packet);
            packet.push(random.byte())
        },
    ),
    change(
        "one byte more in version 2 to 15",
        WHOLE,
        |random, packet| {
            make_extensible(random, packet);
            packet.push(random.byte())
        },
    ),
    change(
        "bytes too many in version 0 or 1",
        &[BAD_HEAD],
        |random, packet| {
            make_exact(random, packet);
            packet.extend(more_bytes(random))
        },
    ),
    change("bytes more in version 2 to 15", WHOLE, |random, packet| {
        make_extensible(random, packet);
        packet.extend(more_bytes(random))
    }),
    change(
        "two headers joined in version 0 or 1",
        &[BAD_HEAD],
        |random, packet| {
            make_exact(random, packet);
            packet.extend(encode(&head(random)))
        },
    ),
    change(
        "two headers joined in version 2 to 15",
        WHOLE,
        |random, packet| {
            make_extensible(random, packet);
            packet.extend(encode(&head(random)))
        },
    ),
    change(
        "family 0 with a table in version 0 or 1",
        &[BAD_HEAD],
        |random, packet| {
            *packet = encode(&head_with_table(random));
            make_exact(random, packet);
            packet[FAMILY] = 0
        },
    ),
    change(
        "family 0 with a table in version 2 to 15",
        WHOLE,
        |random, packet| {
            *packet = encode(&head_with_table(random));
            make_extensible(random, packet);
            packet[FAMILY] = 0
        },
    ),
    change(
        "another family without a table",
        &[BAD_HEAD],
        |random, packet| {
            packet.truncate(SHORTEST);
            packet[FAMILY] = random.within(1..=255) as u8
        },
    ),
    change(
        "another count of a matrix in version 0 or 1",
        &[BAD_HEAD],
        |random, packet| {
            *packet = encode(&head_with_matrix(random));
            make_exact(random, packet);
            let place = *random.pick(&[STREAMS, COUPLED]);
            another_value(random, packet, place)
        },
    ),
    change(
        "another count of a matrix in version 2 to 15",
        ANY,
        |random, packet| {
            *packet = encode(&head_with_matrix(random));
            make_extensible(random, packet);
            let place = *random.pick(&[STREAMS, COUPLED]);
            another_value(random, packet, place)
        },
    ),
    change(
        "a matrix one entry too short",
        &[BAD_HEAD],
        |random, packet| {
            *packet = encode(&matrix_to_read(random));
            packet.truncate(packet.len() - 2)
        },
    ),
    change(
        "a matrix one entry too long in version 0 or 1",
        &[BAD_HEAD],
        |random, packet| {
            *packet = encode(&head_with_matrix(random));
            make_exact(random, packet);
            packet.extend(random.bytes(2))
        },
    ),
    change(
        "a header with a matrix cut at its counts",
        &[BAD_HEAD],
        |random, packet| {
            *packet = encode(&matrix_to_read(random));
            packet.truncate(*random.pick(&[STREAMS, COUPLED, TABLE, TABLE + 1]))
        },
    ),
    change(
        "a matrix past the longest header",
        &[BAD_HEAD],
        |random, packet| {
            let head = long_matrix(random);
            *packet = encode(&Head {
                version: version(random),
                ..head
            })
        },
    ),
    change("indices taken for a matrix", ANY, |random, packet| {
        *packet = encode(&head_with_table(random));
        packet[VERSION] = version(random) as u8;
        packet[FAMILY] = MATRIX as u8
    }),
    change("a matrix taken for indices", ANY, |random, packet| {
        *packet = encode(&matrix_to_read(random));
        packet[FAMILY] = *random.pick(&[0, 1, 2, 255])
    }),
    change("random bytes", &[BAD_HEAD], |random, packet| {
        let length = random.below(300);
        *packet = random.bytes(length)
    }),
    change(
        "random bytes after the signature and the version",
        ANY,
        random_header,
    ),
];

fn another_value(random: &mut Random, packet: &mut [u8], place: usize) {
    packet[place] ^= random.within(1..=255) as u8;
}

/// A legal header of family 3 and of any version that is read.
fn matrix_to_read(random: &mut Random) -> Head {
    Head {
        version: version(random),
        ..head_with_matrix(random)
    }
}

/// How many bytes the fields take that the start of a header tells of.
fn fields_length(packet: &[u8]) -> usize {
    let counts = packet.get(STREAMS..TABLE).map_or([0; 2], |c| [c[0], c[1]]);
    length_of(packet[FAMILY], packet[CHANNELS].into(), counts)
}

/// Leaves the fields alone, in a version that has no bytes after them.
fn make_exact(random: &mut Random, packet: &mut Vec<u8>) {
    packet.truncate(fields_length(packet));
    packet[VERSION] = random.within(0..=1) as u8;
}

/// Leaves the fields alone, in a version that may have bytes after them.
fn make_extensible(random: &mut Random, packet: &mut Vec<u8>) {
    packet.truncate(fields_length(packet));
    packet[VERSION] = random.within(2..=15) as u8;
}

/// Random bytes but for the signature, the version and often the family; the length is mostly the
/// right one, and the indices are often of a few channels.
fn random_header(random: &mut Random, packet: &mut Vec<u8>) {
    *packet = random.bytes(TABLE + PLACES);
    packet[..VERSION].copy_from_slice(b"OpusHead");
    packet[VERSION] = random.within(0..=17) as u8;
    packet[FAMILY] = *random.pick(&[0, 1, 1, 2, 3, 255, 255, packet[FAMILY]]);
    packet[CHANNELS] >>= random.below(8);
    if random.one_in(2) {
        packet[SHORTEST..][..2].copy_from_slice(&[4, 2]);
        packet[TABLE..].fill_with(|| index(random, 6));
    }
    let exact = fields_length(packet);
    let more = random.bytes((exact + 1).saturating_sub(packet.len()));
    packet.extend(more);
    match random.below(8) {
        0..=1 => packet.truncate(exact - 1),
        2 => packet.truncate(exact + 1),
        _ => packet.truncate(exact),
    }
}
