//! Holds the reading of audio packets to RFC 6716 (section 3 and Appendix B) and the rules in
//! docs/PROMISES.md.

use embulgri_tests::calls::check_packet;
use embulgri_tests::opus::{
    Code, Contents, Packet, Padding, BAD_STREAMS, ILLEGAL_PACKET, LARGEST_FRAME, MIXED_LENGTHS,
    MOST_SAMPLES,
};
use embulgri_tests::packet_inputs::Audio;
use embulgri_tests::packet_set::{one_of_each_code, packet, padding};
use embulgri_tests::random::Random;

/// The samples, the frames, the stereo bit and whether it is silent, or the refusal's number.
type Told = Result<[u64; 4], u32>;

const ILLEGAL: Told = Err(ILLEGAL_PACKET);

/// The samples in a frame of each configuration.
const FRAME_SAMPLES: [u64; 32] = [
    480, 960, 1920, 2880, 480, 960, 1920, 2880, 480, 960, 1920, 2880, 480, 960, 480, 960, 120, 240,
    480, 960, 120, 240, 480, 960, 120, 240, 480, 960, 120, 240, 480, 960,
];

const PADDINGS: [Option<Padding>; 7] = [
    None,
    padding(0, 0),
    padding(0, 1),
    padding(0, 254),
    padding(1, 0),
    padding(1, 254),
    padding(3, 7),
];

/// An Opus packet of 960 samples in the fewest bytes.
fn empty_frame() -> Packet {
    packet(1, Code::One, &[0])
}

/// Reads a packet by the library and gives what the rules tell.
fn told(bytes: &[u8], streams: u64, case: &str) -> Told {
    check_packet(bytes, streams, case).map(Contents::numbers)
}

/// Reads a packet of 960 samples as the last of one to three.
fn assert_legal(last: &Packet, random: &mut Random) {
    assert_alone_and_after_others(last, random, |first| Ok(first.contents().numbers()));
}

/// Reads an illegal packet as the last of one to three.
fn assert_illegal(last: &Packet, random: &mut Random) {
    assert_alone_and_after_others(last, random, |_| ILLEGAL);
}

/// Reads a packet as the last of one to three. What is told is up to the first of them.
fn assert_alone_and_after_others(last: &Packet, random: &mut Random, due: fn(&Packet) -> Told) {
    let other = &empty_frame();
    for packets in [&[last][..], &[other, last], &[other, other, last]] {
        let audio = Audio::of(packets, random);
        let answer = told(&audio.bytes(), audio.streams, "the last");
        assert_eq!(answer, due(packets[0]), "{last:?}");
    }
}

/// Reads packets of 960 samples that are legal as a whole but not without the last byte or two.
fn assert_whole_only(packets: &[&Packet], random: &mut Random) {
    let audio = Audio::of(packets, random);
    let (bytes, streams) = (audio.bytes(), audio.streams);
    assert_eq!(audio.contents.samples, 960);
    let answer = told(&bytes, streams, "whole");
    assert_eq!(answer, Ok(audio.contents.numbers()), "{packets:?}");
    for missing in 1..=2 {
        let answer = told(&bytes[..bytes.len() - missing], streams, "cut");
        assert_eq!(answer, ILLEGAL, "{packets:?}");
    }
}

#[test]
fn known_packets_of_one_stream_have_the_known_answers() {
    let known: [(&[u8], Told); 12] = [
        (&[0x00], Ok([480, 1, 0, 1])),
        (&[], ILLEGAL),
        (&[0x01, 0xaa], ILLEGAL),
        (&[0x01, 0xaa, 0xbb], Ok([960, 2, 0, 0])),
        (&[0x02, 0x02, 0x11, 0x22], Ok([960, 2, 0, 0])),
        (&[0x02, 0x03, 0x11, 0x22], ILLEGAL),
        (&[0x03, 0x00], ILLEGAL),
        (&[0x83, 0x30], Ok([5760, 48, 0, 1])),
        (&[0x83, 0x31], ILLEGAL),
        (&[0x83, 0x41, 0x01, 0x00], Ok([120, 1, 0, 1])),
        (&[0x83, 0x41, 0x02, 0x00], ILLEGAL),
        (&[0x4f, 0x70], ILLEGAL),
    ];
    for (bytes, answer) in known {
        assert_eq!(told(bytes, 1, "known"), answer, "{bytes:02x?}");
    }
}

#[test]
fn known_packets_of_several_streams_have_the_known_answers() {
    let known: [(&[u8], u64, Told); 12] = [
        (&[0x00, 0x01, 0xaa, 0x00], 2, Ok([480, 1, 0, 0])),
        (&[0x00, 0x01, 0xaa], 2, ILLEGAL),
        (&[0x01, 0x01, 0xaa, 0xbb, 0x08], 2, Ok([960, 2, 0, 0])),
        (&[0x02, 0x01, 0x00, 0xaa, 0x08], 2, Ok([960, 2, 0, 0])),
        (&[0x83, 0x04, 0x01, 1, 2, 3, 4, 0x04], 2, Ok([480, 4, 0, 0])),
        (
            &[0x83, 0x42, 0x01, 0x01, 1, 2, 0, 0x88],
            2,
            Ok([240, 2, 0, 0]),
        ),
        (
            &[0x83, 0x82, 0x01, 0x02, 1, 2, 3, 0x88],
            2,
            Ok([240, 2, 0, 0]),
        ),
        (&[0x00, 0x00, 0x08], 2, Err(MIXED_LENGTHS)),
        (&[0x00, 0x00, 0x08, 0x00, 0x00], 3, Err(MIXED_LENGTHS)),
        (&[0x00, 0x00, 0x08, 0x00, 0x03, 0x00], 3, ILLEGAL),
        (&[0x00, 0x00, 0x08, 0x00], 3, ILLEGAL),
        (&[0x00, 0x00, 0x08, 0x00], 0, Err(BAD_STREAMS)),
    ];
    for (bytes, streams, answer) in known {
        let found = told(bytes, streams, "known");
        assert_eq!(found, answer, "{streams} streams, {bytes:02x?}");
    }
}

#[test]
fn every_config_and_code_has_the_samples_of_the_table_up_to_120_ms() {
    let mut random = Random::of_run(11);
    for (config, samples) in (0..).zip(FRAME_SAMPLES) {
        let mut packets = vec![
            packet(config, Code::One, &[2]),
            packet(config, Code::TwoEqual, &[2; 2]),
            packet(config, Code::TwoSized, &[2, 3]),
        ];
        for frames in (1..=63).map(|count| vec![2; count]) {
            for padding in PADDINGS {
                packets.push(packet(config, Code::Cbr(padding), &frames));
                packets.push(packet(config, Code::Vbr(padding), &frames));
            }
        }
        for mut packet in packets {
            packet.stereo = random.one_in(2);
            let frames = packet.frames.len() as u64;
            let expected = match samples * frames <= MOST_SAMPLES {
                true => Ok([samples * frames, frames, packet.stereo.into(), 0]),
                false => ILLEGAL,
            };
            for streams in 1..=2 {
                let audio = Audio::of(&vec![&packet; streams], &mut random);
                let answer = told(&audio.bytes(), audio.streams, "frames");
                assert_eq!(answer, expected, "{packet:?}");
            }
        }
    }
}

#[test]
fn no_frames_are_refused_whatever_follows() {
    for config in 0..32 {
        for count in [0x00, 0x40, 0x80, 0xc0] {
            for zeros in 0..6 {
                let bytes = [&[config << 3 | 3, count], &[0; 6][..zeros]].concat();
                for streams in 1..=3 {
                    let answer = told(&bytes, streams, "no frames");
                    assert_eq!(answer, ILLEGAL, "{bytes:02x?}");
                }
            }
        }
    }
}

#[test]
fn a_frame_of_1275_bytes_is_read_and_not_one_byte_more() {
    let mut random = Random::of_run(12);
    let with_frame_of = |size| {
        [
            packet(1, Code::One, &[size]),
            packet(0, Code::TwoEqual, &[size; 2]),
            packet(0, Code::TwoSized, &[LARGEST_FRAME, size]),
            packet(16, Code::Cbr(None), &[size; 8]),
            packet(18, Code::Cbr(padding(1, 40)), &[size; 2]),
            packet(18, Code::Vbr(None), &[LARGEST_FRAME, size]),
            packet(19, Code::Vbr(padding(1, 40)), &[size]),
        ]
    };
    for last in &with_frame_of(LARGEST_FRAME) {
        assert_legal(last, &mut random);
    }
    for last in &with_frame_of(LARGEST_FRAME + 1) {
        assert_illegal(last, &mut random);
    }
}

#[test]
fn frames_of_every_size_reach_the_end_and_not_past_it() {
    let mut random = Random::of_run(13);
    for size in 0..=LARGEST_FRAME {
        for packet in &one_of_each_code([size; 8]) {
            assert_legal(packet, &mut random);
            assert_whole_only(&[packet, &empty_frame()], &mut random);
        }
        let last_empty = [
            packet(0, Code::TwoSized, &[size, 0]),
            packet(18, Code::Vbr(None), &[size, 0]),
            packet(17, Code::Vbr(padding(0, 1)), &[size, size, 0, 0]),
        ];
        for packet in &last_empty {
            assert_whole_only(&[packet], &mut random);
        }
    }
}

#[test]
fn padding_of_every_length_reaches_the_end_and_not_past_it() {
    let mut random = Random::of_run(14);
    let short = (0..4).flat_map(|full| (0..=254).map(move |last| padding(full, last)));
    let long = [padding(240, 0), padding(240, 254)];
    for padding in short.chain(long) {
        for code in [Code::Cbr(padding), Code::Vbr(padding)] {
            let padded = |size| packet(19, code, &[size]);
            assert_whole_only(&[&padded(0)], &mut random);
            assert_whole_only(&[&padded(0), &empty_frame()], &mut random);
            assert_legal(&padded(LARGEST_FRAME), &mut random);
            assert_illegal(&padded(LARGEST_FRAME + 1), &mut random);
        }
    }
}

#[test]
fn a_padding_length_without_an_end_is_refused() {
    let mut bytes = vec![255; 62_000];
    for count in [0x41, 0xc1] {
        bytes[..2].copy_from_slice(&[0x9b, count]);
        for length in (2..600).chain([61_440, 62_000]) {
            for streams in 1..=2 {
                let answer = told(&bytes[..length], streams, "no end");
                assert_eq!(answer, ILLEGAL, "{length} bytes");
            }
        }
    }
}
