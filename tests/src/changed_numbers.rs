//! The numbers of a reader changed at random, and pages made to fit the reader that they represent.

use crate::feeding::{CONTINUED, FIRST, MOST_GRANULE};
use crate::inputs::{change, Change};
use crate::ogg::Page;
use crate::random::Random;
use crate::reader::{Phase, Reader, Unfinished, NUMBERS, TOTALS};
use crate::tags::LONGEST;

pub type Numbers = [u64; NUMBERS];

/// The ways to change the numbers of a reader.
const CHANGES: &[Change<Numbers>] = &[
    change("as they are", &[], |_, _| ()),
    change("bits past a field's width", &[], |random, numbers| {
        let (place, width) = *random.pick(&[(5, 32), (6, 32), (7, 8), (8, 16), (9, 16)]);
        numbers[place] |= random.number() << width
    }),
    change("other totals", &[], |random, numbers| {
        numbers[TOTALS].fill_with(|| random.field())
    }),
    change("numbers that nothing uses", &[], |random, numbers| {
        numbers[TOTALS.end..].fill_with(|| random.field())
    }),
    change("another phase", &[], |random, numbers| {
        numbers[0] = *random.pick(&[0, 1, 2, 3, 4, 5, 256, 1 << 32, u64::MAX])
    }),
    change("no page yet", &[], |_, numbers| {
        numbers[..4].copy_from_slice(&[0; 4])
    }),
    change("opened with no page yet", &[], |_, numbers| {
        numbers[..4].copy_from_slice(&[3, 0, 0, 1])
    }),
    change("another unfinished packet", &[], |random, numbers| {
        numbers[1] = *random.pick(&[0, 1, 2, 3, 256, 257, u64::MAX])
    }),
    change("another held count", &[], |random, numbers| {
        let any = random.below(LONGEST + 1) as u64;
        numbers[1] = 1;
        numbers[2] = *random.pick(&[
            0,
            1,
            255,
            61_185,
            61_200,
            61_439,
            61_440,
            61_441,
            1 << 32,
            u64::MAX,
            any,
        ])
    }),
    change("another kind of position", &[], |random, numbers| {
        numbers[3] = *random.pick(&[0, 1, 2, 3, 256, u64::MAX])
    }),
    change("another position", &[], |random, numbers| {
        let near = numbers[4]
            .wrapping_add(random.below(4_000) as u64)
            .wrapping_sub(2_000);
        numbers[3] = 2;
        numbers[4] = *random.pick(&[0, 1, MOST_GRANULE, MOST_GRANULE + 1, u64::MAX, near])
    }),
    change("another number of streams", &[], |random, numbers| {
        numbers[7] = *random.pick(&[0, 1, 2, 3, 254, 255, 256, 257, u64::MAX])
    }),
    change("another pre-skip", &[], |random, numbers| {
        numbers[8] = random.field()
    }),
    change("other samples to skip", &[], |random, numbers| {
        numbers[9] = *random.pick(&[0, 1, 959, 960, 65_535, 65_536, u64::MAX])
    }),
    change("the last sequence number of all", &[], |random, numbers| {
        numbers[6] = *random.pick(&[0, u32::MAX.into(), u64::MAX, 1 << 32])
    }),
    change("any numbers", &[], |random, numbers| {
        numbers.fill_with(|| random.field());
        numbers[0] = random.below(5) as u64;
        numbers[2] >>= random.below(64)
    }),
    change("any numbers at all", &[], |random, numbers| {
        numbers.fill_with(|| random.field())
    }),
];

/// Makes the fields of a page those that a reader expects.
pub fn fit(page: &mut Page, reader: &Reader) {
    page.serial = reader.serial;
    page.sequence = match reader.phase {
        Phase::First => 0,
        _ => reader.next,
    };
    page.flags &= !(CONTINUED | FIRST);
    match reader.phase {
        Phase::First => page.flags |= FIRST,
        _ if reader.unfinished != Unfinished::Nothing => page.flags |= CONTINUED,
        _ => (),
    }
}

/// The numbers of a reader changed in one way or two, and the name of the first. Often the totals
/// are just below 2^64.
pub fn changed(random: &mut Random, mut numbers: Numbers) -> (Numbers, &'static str) {
    let (one, other) = (random.pick(CHANGES), random.pick(CHANGES));
    (one.apply)(random, &mut numbers);
    if random.one_in(3) {
        (other.apply)(random, &mut numbers);
    }
    if random.one_in(3) {
        numbers[TOTALS].fill_with(|| u64::MAX - random.below(2_000) as u64);
    }
    (numbers, one.name)
}
