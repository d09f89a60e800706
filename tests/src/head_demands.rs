//! The ways to ask the writer of identification headers for what it does not write, whatever the
//! channel mapping: what reading never gives, and versions that are only read.

use crate::head::{Head, PLACES, UNFIT_FIELDS, WIDTHS};
use crate::head_inputs::{
    head_of_family_0, head_with_matrix, head_with_table, long_matrix, without_table,
};
use crate::inputs::{change, Change};
use crate::random::Random;

const UNFIT: &[u32] = &[UNFIT_FIELDS];

/// The ways to ask the writer for a version that is read and not written.
pub const READ_VERSIONS: &[Change<Head>] = &[
    change("version 0", UNFIT, |_, head| head.version = 0),
    change("version 2", UNFIT, |_, head| head.version = 2),
    change("version 15", UNFIT, |_, head| head.version = 15),
    change("a version from 2 to 15", UNFIT, |random, head| {
        head.version = random.within(2..=15) as u64
    }),
];

/// The ways to give the writer a matrix of a length that the fields do not ask for. Opening part way
/// is given none.
pub const MATRICES: &[Change<Head>] = &[
    change("a matrix one byte short", UNFIT, |random, head| {
        *head = head_with_matrix(random);
        head.matrix.pop();
    }),
    change("a matrix one byte long", UNFIT, |random, head| {
        *head = head_with_matrix(random);
        head.matrix.push(random.byte())
    }),
    change("a matrix one entry short", UNFIT, |random, head| {
        *head = head_with_matrix(random);
        head.matrix.truncate(head.matrix.len() - 2)
    }),
    change("a matrix one entry long", UNFIT, |random, head| {
        *head = head_with_matrix(random);
        head.matrix.extend(random.bytes(2))
    }),
    change("a matrix of another length", UNFIT, |random, head| {
        *head = head_with_matrix(random);
        let length = head.matrix.len() + random.within(1..=600);
        head.matrix = random.bytes(length)
    }),
    change("no matrix in family 3", UNFIT, |random, head| {
        *head = head_with_matrix(random);
        head.matrix.clear()
    }),
    change("a matrix in another family", UNFIT, |random, head| {
        *head = without_matrix(random);
        let right = 2 * (head.streams + head.coupled) * head.channels;
        let length = *random.pick(&[1, 2, right as usize]);
        head.matrix = random.bytes(length)
    }),
];

/// The ways to ask for what neither the writer nor opening part way takes.
pub const DEMANDS: &[Change<Head>] = &[
    change("version 16", UNFIT, |_, head| head.version = 16),
    change("a version above 15", UNFIT, |random, head| {
        head.version = random.within(16..=255) as u64
    }),
    change("the least bit above a field set", UNFIT, |random, head| {
        set_bit(random, head, |_, width| width)
    }),
    change("a bit above a field set", UNFIT, |random, head| {
        set_bit(random, head, |random, width| {
            random.within(width as usize..=63) as u32
        })
    }),
    change("the highest bit of a field set", UNFIT, |random, head| {
        set_bit(random, head, |_, _| 63)
    }),
    change(
        "the gain with its sign in 64 bits",
        UNFIT,
        |random, head| {
            let gain = -(random.within(1..=0x8000) as i64);
            head.gain = gain.cast_unsigned()
        },
    ),
    change("the first unused place not zero", UNFIT, |random, head| {
        spare_places(random, head);
        put_other(random, head, head.indices())
    }),
    change("the last unused place not zero", UNFIT, |random, head| {
        spare_places(random, head);
        put_other(random, head, PLACES - 1)
    }),
    change("an unused place not zero", UNFIT, |random, head| {
        spare_places(random, head);
        let place = random.within(head.indices()..=PLACES - 1);
        put_other(random, head, place)
    }),
    change("a place not zero beside a matrix", UNFIT, |random, head| {
        *head = head_with_matrix(random);
        let place = *random.pick(&[0, head.channels as usize - 1, PLACES - 1]);
        put_other(random, head, place)
    }),
    change("a matrix past the longest header", UNFIT, |random, head| {
        *head = long_matrix(random)
    }),
    change("family 0 of another stream count", UNFIT, |random, head| {
        *head = head_of_family_0(random);
        head.streams = *random.pick(&[0, 2, 3, 254, 255])
    }),
    change("family 0 of one coupled channel", UNFIT, |random, head| {
        *head = without_table(random, 1);
        head.coupled = 1
    }),
    change("family 0 of two channels alike", UNFIT, |random, head| {
        *head = without_table(random, 2);
        head.coupled = 0;
        head.mapping[1] = 0
    }),
    change("family 0 of channels exchanged", UNFIT, |random, head| {
        *head = without_table(random, 2);
        head.mapping.swap(0, 1)
    }),
    change("family 0 of another index", UNFIT, |random, head| {
        *head = head_of_family_0(random);
        let place = random.below(head.channels as usize);
        put_other(random, head, place)
    }),
];

/// Sets a bit of any field, its place by the field's width.
fn set_bit(random: &mut Random, head: &mut Head, bit: fn(&mut Random, u32) -> u32) {
    let mut fields = head.fields();
    let place = random.below(fields.len());
    fields[place] |= 1 << bit(random, WIDTHS[place]);
    *head = head.with_fields(fields);
}

/// A legal header of any family but 3.
fn without_matrix(random: &mut Random) -> Head {
    match random.one_in(4) {
        true => head_of_family_0(random),
        false => head_with_table(random),
    }
}

/// Takes another header if this one uses all the places.
fn spare_places(random: &mut Random, head: &mut Head) {
    while head.indices() == PLACES {
        *head = head_with_table(random);
    }
}

fn put_other(random: &mut Random, head: &mut Head, place: usize) {
    head.mapping[place] ^= random.within(1..=255) as u8;
}
