//! The ways to make an audio page wrong for the reader that it is fed to.

use crate::feed_faults::Case;
use crate::feeding::{LAST, MOST_GRANULE, NO_GRANULE, WRONG_GRANULE};
use crate::inputs::{change, Change};
use crate::opus::{BAD_STREAMS, ILLEGAL_PACKET, MIXED_LENGTHS};
use crate::packet_damages;
use crate::packet_inputs::{audio_of, Audio};
use crate::random::Random;
use crate::reader::Position;
use crate::stamps::{BELOW_PRE_SKIP, NO_POSITION, SMALL_GRANULE};

/// The ways to make the granule field of an audio page one that cannot be there.
pub const GRANULES: &[Change<Case>] = &[
    change(
        "no granule where a packet completes",
        &[WRONG_GRANULE],
        |random, case| {
            completing(random, case);
            case.page.granule = NO_GRANULE
        },
    ),
    change(
        "the least granule too large",
        &[WRONG_GRANULE],
        |random, case| {
            completing(random, case);
            case.page.granule = MOST_GRANULE + 1
        },
    ),
    change("a granule too large", &[WRONG_GRANULE], |random, case| {
        completing(random, case);
        case.page.granule = (random.number() | 1 << 63) & !(1 << random.below(63))
    }),
    change(
        "a granule where nothing completes",
        &[WRONG_GRANULE],
        |random, case| {
            case.put(&[(random.bytes(255), false)]);
            case.page.granule = any_granule(random)
        },
    ),
    change(
        "a granule on a page of no lacing values",
        &[WRONG_GRANULE],
        |random, case| {
            case.put(&[]);
            case.page.granule = any_granule(random)
        },
    ),
];

/// The same where a dropped packet is all that completes.
pub const DROPPED: &[Change<Case>] = &[change(
    "no granule where a dropped packet completes",
    &[WRONG_GRANULE],
    |random, case| {
        let length = random.below(600);
        case.put(&[(random.bytes(length), true)]);
        case.page.granule = NO_GRANULE
    },
)];

/// The ways to make a packet on an audio page wrong.
pub const PACKETS: &[Change<Case>] = &[
    change("an illegal packet", &[ILLEGAL_PACKET], |random, case| {
        put_packet(random, case, &[ILLEGAL_PACKET])
    }),
    change("an empty packet", &[ILLEGAL_PACKET], |random, case| {
        put_in(random, case, Vec::new())
    }),
    change(
        "another end of the packet that is held",
        &[ILLEGAL_PACKET],
        |random, case| {
            let length = random.below(300);
            let mut pieces = case.pieces();
            if let Some(first) = pieces.first_mut().filter(|_| case.is_continued()) {
                *first = (random.bytes(length), true);
                case.put(&pieces);
                has_granule(case)
            }
        },
    ),
    change("a damaged packet", &[ILLEGAL_PACKET], |random, case| {
        put_packet(random, case, &[0, ILLEGAL_PACKET, MIXED_LENGTHS])
    }),
];

/// The ways to make the lengths in one packet differ.
pub const MIXED: &[Change<Case>] = &[change(
    "a packet of two lengths",
    &[MIXED_LENGTHS],
    |random, case| put_packet(random, case, &[MIXED_LENGTHS]),
)];

/// The ways to give an audio page where a packet completes a granule position too small.
pub const SMALL: &[Change<Case>] = &[
    change("a granule one too small", &[SMALL_GRANULE], |_, case| {
        case.page.granule = least(case).saturating_sub(1)
    }),
    change("a granule too small", &[SMALL_GRANULE], |random, case| {
        case.page.granule = random.number() % least(case).max(1)
    }),
    change(
        "a granule a little too small",
        &[SMALL_GRANULE],
        |random, case| {
            let less = random.below(case.samples as usize + 2) as u64;
            case.page.granule = least(case).saturating_sub(less)
        },
    ),
    change("granule 0", &[SMALL_GRANULE], |_, case| {
        case.page.granule = 0
    }),
];

/// The ways to end a stream before it has a position.
pub const EARLY_ENDS: &[Change<Case>] = &[
    change(
        "an end one below the pre-skip",
        &[BELOW_PRE_SKIP],
        |_, case| {
            case.page.flags |= LAST;
            case.page.granule = u64::from(case.reader.pre_skip).saturating_sub(1)
        },
    ),
    change(
        "an end below the pre-skip",
        &[BELOW_PRE_SKIP],
        |random, case| {
            case.page.flags |= LAST;
            case.page.granule = random.number() % u64::from(case.reader.pre_skip).max(1)
        },
    ),
];

/// The same for a reader that was opened part way.
pub const ENDS_ON_NOTHING: &[Change<Case>] = &[change(
    "an end with no granule position before it",
    &[NO_POSITION],
    |_, case| case.page.flags |= LAST,
)];

/// The least granule position that the page may have.
fn least(case: &Case) -> u64 {
    let is_last = case.page.flags & LAST != 0;
    let samples = if is_last { 0 } else { case.samples };
    match case.reader.position {
        Position::At(position) => position.saturating_add(samples),
        Position::Unset | Position::Joined => samples,
    }
}

fn any_granule(random: &mut Random) -> u64 {
    let any = random.number() >> 1;
    *random.pick(&[0, 1, MOST_GRANULE, NO_GRANULE - 1, any])
}

/// Makes some packet complete on the page.
fn completing(random: &mut Random, case: &mut Case) {
    if case.page.granule == NO_GRANULE {
        let length = random.below(400);
        case.put(&[(random.bytes(length), true)]);
    }
}

/// Gives the page a granule position that is not too small if it has none.
fn has_granule(case: &mut Case) {
    if case.page.granule == NO_GRANULE {
        case.page.granule = MOST_GRANULE;
    }
}

/// Puts a packet in place of one that is whole on the page, or between two.
fn put_in(random: &mut Random, case: &mut Case, packet: Vec<u8>) {
    let first = usize::from(case.is_continued());
    let mut pieces = case.pieces();
    if pieces.len() < first {
        pieces.push((random.bytes(5), true));
    }
    if let Some(continuing) = pieces.first_mut().filter(|_| first == 1) {
        continuing.1 = true;
    }
    let whole = pieces.iter().skip(first).filter(|(_, ends)| *ends).count();
    let place = first + random.within(0..=whole);
    match place < first + whole {
        true => pieces[place] = (packet, true),
        false => pieces.insert(place, (packet, true)),
    }
    case.put(&pieces);
    if case.page.lacing.len() > 255 {
        case.put(&pieces[place..=place]);
    }
    has_granule(case);
}

/// Puts a packet that was damaged so that these answers can come of it.
fn put_packet(random: &mut Random, case: &mut Case, answers: &[u32]) {
    let streams = usize::from(case.reader.streams.max(1));
    let mut audio: Audio = audio_of(random, streams);
    let damage = loop {
        let damage = random.pick(packet_damages::DAMAGES);
        let is_of_streams = damage.answers.contains(&BAD_STREAMS);
        if !is_of_streams && damage.answers.iter().all(|answer| answers.contains(answer)) {
            break damage;
        }
    };
    (damage.apply)(random, &mut audio);
    let packet = audio.bytes();
    if packet.len() < 20_000 {
        put_in(random, case, packet);
    }
}
