//! The ways to damage an audio packet, or the number of streams told, before it is read.

use crate::inputs::{change, Change};
use crate::opus::{BAD_STREAMS, ILLEGAL_PACKET, LARGEST_FRAME, MIXED_LENGTHS};
use crate::packet_illegal as illegal;
use crate::packet_inputs::{audio_of, packet, samples, Audio};
use crate::random::Random;

pub const UNDAMAGED: Change<Audio> = change("undamaged", &[0], |_, _| ());

/// What can come of other bytes, and of another number of streams too.
const ANY_OF_PACKET: &[u32] = &[0, ILLEGAL_PACKET, MIXED_LENGTHS];
const ANY: &[u32] = &[0, BAD_STREAMS, ILLEGAL_PACKET, MIXED_LENGTHS];

/// The ways to damage an audio packet.
pub const DAMAGES: &[Change<Audio>] = &[
    change(
        "one Opus packet of another length",
        &[MIXED_LENGTHS],
        |random, audio| {
            several_streams(random, audio);
            let place = any_place(random, audio);
            put_another_length(random, audio, place)
        },
    ),
    change(
        "one illegal Opus packet",
        &[ILLEGAL_PACKET],
        |random, audio| {
            let place = any_place(random, audio);
            put_illegal(random, audio, place)
        },
    ),
    change(
        "one Opus packet of another length and one illegal",
        &[ILLEGAL_PACKET],
        another_length_and_illegal,
    ),
    change(
        "the last of code 1 with an odd number of bytes",
        &[ILLEGAL_PACKET],
        |random, audio| *last(audio) = illegal::odd(random),
    ),
    change(
        "the last with frames of more than 1,275 bytes",
        &[ILLEGAL_PACKET],
        |random, audio| *last(audio) = illegal::too_large(random),
    ),
    change(
        "the last of CBR with a few bytes left over",
        &[ILLEGAL_PACKET],
        |random, audio| *last(audio) = illegal::left_over(random),
    ),
    change(
        "the last with the coded lengths one byte past the end",
        &[ILLEGAL_PACKET],
        |random, audio| *last(audio) = illegal::lengths_past_the_end(random),
    ),
    change(
        "the last with the padding one byte past the end",
        &[ILLEGAL_PACKET],
        |random, audio| *last(audio) = illegal::padding_past_the_end(random),
    ),
    change("no bytes", &[ILLEGAL_PACKET], |_, audio| {
        audio.packets.clear()
    }),
    change("cut anywhere", &[0, ILLEGAL_PACKET], |random, audio| {
        rewrite(audio, |bytes| bytes.truncate(random.below(bytes.len())))
    }),
    change("one byte changed", ANY_OF_PACKET, |random, audio| {
        rewrite(audio, |bytes| {
            let place = random.below(bytes.len());
            bytes[place] ^= random.within(1..=255) as u8
        })
    }),
    change(
        "a bit of a TOC byte flipped",
        ANY_OF_PACKET,
        |random, audio| {
            let place = any_place(random, audio);
            audio.packets[place][0] ^= 1 << random.below(8)
        },
    ),
    change("one byte put in", ANY_OF_PACKET, |random, audio| {
        rewrite(audio, |bytes| {
            bytes.insert(random.within(0..=bytes.len()), random.byte())
        })
    }),
    change("one byte taken out", ANY_OF_PACKET, |random, audio| {
        rewrite(audio, |bytes| {
            bytes.remove(random.below(bytes.len()));
        })
    }),
    change("random bytes", ANY_OF_PACKET, |random, audio| {
        let length = random.below(400);
        audio.packets = vec![random.bytes(length)]
    }),
    change(
        "few random bytes of few streams",
        ANY_OF_PACKET,
        |random, audio| {
            let length = random.below(12);
            audio.packets = vec![random.bytes(length)];
            audio.streams = random.within(1..=3) as u64
        },
    ),
    change("one stream fewer told", ANY, |_, audio| audio.streams -= 1),
    change("one stream more told", ANY, |_, audio| audio.streams += 1),
    change("another number of streams told", ANY, |random, audio| {
        audio.streams = random.within(0..=300) as u64
    }),
    change("no streams told", &[BAD_STREAMS], |_, audio| {
        audio.streams = 0
    }),
    change("256 streams told", &[BAD_STREAMS], |_, audio| {
        audio.streams = 256
    }),
    change("2^64 - 1 streams told", &[BAD_STREAMS], |_, audio| {
        audio.streams = u64::MAX
    }),
    change("2^32 streams more told", &[BAD_STREAMS], |_, audio| {
        audio.streams += 1 << 32
    }),
    change(
        "one bit set in the number of streams that a byte cannot hold",
        &[BAD_STREAMS],
        |random, audio| audio.streams |= 1 << random.within(8..=63),
    ),
    change(
        "random bytes and a random number of streams above 255",
        &[BAD_STREAMS],
        |random, audio| {
            audio.packets = vec![random.bytes(40)];
            audio.streams = random.number() | 256
        },
    ),
    change("no bytes and no streams", &[BAD_STREAMS], |_, audio| {
        audio.packets.clear();
        audio.streams = 0
    }),
];

fn any_place(random: &mut Random, audio: &Audio) -> usize {
    random.below(audio.packets.len())
}

/// Takes another audio packet if this one is of a single stream.
fn several_streams(random: &mut Random, audio: &mut Audio) {
    if audio.packets.len() < 2 {
        let streams = random.within(2..=6);
        *audio = audio_of(random, streams);
    }
}

/// Changes all the bytes as one.
fn rewrite(audio: &mut Audio, apply: impl FnOnce(&mut Vec<u8>)) {
    let mut bytes = audio.bytes();
    apply(&mut bytes);
    audio.packets = vec![bytes];
}

fn last(audio: &mut Audio) -> &mut Vec<u8> {
    audio.packets.last_mut().expect("at least one Opus packet")
}

fn put_another_length(random: &mut Random, audio: &mut Audio, place: usize) {
    let other = loop {
        let other = samples(random);
        if other != audio.contents.samples {
            break other;
        }
    };
    let packet = packet(random, other, LARGEST_FRAME);
    audio.packets[place] = packet.encode(audio.form(place), random);
}

fn put_illegal(random: &mut Random, audio: &mut Audio, place: usize) {
    audio.packets[place] = illegal::anywhere(random, audio.form(place));
}

fn another_length_and_illegal(random: &mut Random, audio: &mut Audio) {
    several_streams(random, audio);
    let count = audio.packets.len();
    let (other, step) = (random.below(count), random.within(1..=count - 1));
    put_another_length(random, audio, other);
    put_illegal(random, audio, (other + step) % count);
}
