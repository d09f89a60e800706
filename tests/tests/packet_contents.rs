//! Holds what reading tells of the first Opus packet of an audio packet to RFC 6716, section 3: its
//! number of frames, its stereo bit, and whether all of its frames are empty.

use embulgri_tests::calls::check_packet;
use embulgri_tests::inputs::shifted;
use embulgri_tests::opus::{
    frame_samples, read_packets, Code, Contents, Packet, BAD_STREAMS, ILLEGAL_PACKET,
    MIXED_LENGTHS, MOST_SAMPLES,
};
use embulgri_tests::packet_classes::{names, names_of};
use embulgri_tests::packet_damages::{DAMAGES, UNDAMAGED};
use embulgri_tests::packet_inputs::Audio;
use embulgri_tests::packet_set::padding;
use embulgri_tests::packet_shapes::shaped;
use embulgri_tests::random::Random;
use embulgri_tests::tally::{Classes, Frames, Tally};

const CASES: usize = 320_000;
const LEAST_CASES: usize = 300_000;
const LEAST_OF_EACH: usize = 1_000;

/// The four numbers that are told of an audio packet.
fn told(bytes: &[u8], streams: u64) -> Result<[u64; 4], u32> {
    check_packet(bytes, streams, "known").map(Contents::numbers)
}

#[test]
fn known_packets_have_the_known_contents() {
    let known: [(&[u8], [u64; 4]); 17] = [
        (&[0xf8], [960, 1, 0, 1]),
        (&[0xfc], [960, 1, 1, 1]),
        (&[0xfc, 0x00], [960, 1, 1, 0]),
        (&[0xf1], [960, 2, 0, 1]),
        (&[0xf5, 0x00, 0x00], [960, 2, 1, 0]),
        (&[0xf2, 0x00], [960, 2, 0, 1]),
        (&[0xf2, 0x00, 0xaa], [960, 2, 0, 0]),
        (&[0xf6, 0x01, 0xaa], [960, 2, 1, 0]),
        (&[0xe3, 0x03], [360, 3, 0, 1]),
        (&[0xe3, 0x03, 1, 2, 3], [360, 3, 0, 0]),
        (&[0xe7, 0x43, 0x00], [360, 3, 1, 1]),
        (&[0xe7, 0x43, 0x02, 0xaa, 0xbb], [360, 3, 1, 1]),
        (&[0xe7, 0x43, 0x02, 1, 2, 3, 0xaa, 0xbb], [360, 3, 1, 0]),
        (&[0xe3, 0x83, 0x00, 0x00], [360, 3, 0, 1]),
        (&[0xe3, 0x83, 0x00, 0x00, 0xaa], [360, 3, 0, 0]),
        (&[0xe3, 0x83, 0x00, 0x01, 0xaa], [360, 3, 0, 0]),
        (&[0xe3, 0xc3, 0x01, 0x00, 0x00, 0xaa], [360, 3, 0, 1]),
    ];
    for (bytes, numbers) in known {
        assert_eq!(told(bytes, 1), Ok(numbers), "{bytes:02x?}");
    }
}

#[test]
fn the_first_of_several_opus_packets_decides() {
    let known: [(&[u8], u64, [u64; 4]); 8] = [
        (&[0xf8, 0x00, 0xf5, 0xaa, 0xbb], 2, [960, 1, 0, 1]),
        (&[0xf5, 0x01, 0xaa, 0xbb, 0xf8], 2, [960, 2, 1, 0]),
        (&[0xf1, 0x00, 0xfc, 0xaa], 2, [960, 2, 0, 1]),
        (&[0xf2, 0x00, 0x01, 0xaa, 0xfc], 2, [960, 2, 0, 0]),
        (&[0xf6, 0x00, 0x00, 0xf8, 0xaa], 2, [960, 2, 1, 1]),
        (&[0xe3, 0x48, 0x01, 0x00, 0xaa, 0xfc, 1], 2, [960, 8, 0, 1]),
        (&[0xec, 0x00, 0xe1, 0x00, 0xe8, 0x00], 3, [240, 1, 1, 1]),
        (&[0xe1, 0x00, 0xec, 0x01, 0xaa, 0xe1], 3, [240, 2, 0, 1]),
    ];
    for (bytes, streams, numbers) in known {
        assert_eq!(told(bytes, streams), Ok(numbers), "{bytes:02x?}");
    }
}

/// Reads a packet alone and before one of no bytes, of as many samples and of the other kind.
fn check_alone_and_first(packet: &Packet, random: &mut Random) {
    let contents = packet.contents();
    let other = Packet {
        config: 16,
        stereo: !packet.stereo,
        code: Code::Cbr(None),
        frames: vec![0; (contents.samples / 120) as usize],
    };
    for packets in [&[packet][..], &[packet, &other]] {
        let audio = Audio::of(packets, random);
        let answer = check_packet(&audio.bytes(), audio.streams, "made");
        assert_eq!(answer, Ok(contents), "{packet:?}");
    }
}

#[test]
fn every_config_and_count_of_frames_is_told_with_one_byte_at_each_place_and_with_none() {
    let mut random = Random::of_run(26);
    let paddings = [None, padding(0, 0), padding(0, 1), padding(1, 254)];
    for config in 0..32 {
        let most = (MOST_SAMPLES / frame_samples(config)) as usize;
        for count in 1..=most {
            let sizes = |place| (0..count).map(|i| usize::from(i == place)).collect();
            let shape = |code, stereo, frames| Packet {
                config,
                stereo,
                code,
                frames,
            };
            for (padding, stereo) in paddings.into_iter().flat_map(|p| [(p, false), (p, true)]) {
                for size in [0, 1] {
                    let packet = shape(Code::Cbr(padding), stereo, vec![size; count]);
                    check_alone_and_first(&packet, &mut random);
                }
                for place in 0..=count {
                    let packet = shape(Code::Vbr(padding), stereo, sizes(place));
                    assert_eq!(packet.contents().silent, place == count);
                    check_alone_and_first(&packet, &mut random);
                }
            }
        }
    }
}

#[test]
fn reading_tells_the_contents_of_packets_of_every_class() {
    let mut random = Random::of_run(27);
    let mut tally = Tally::default();
    let (mut classes, mut frames) = (Classes::default(), Frames::default());
    for number in 0..CASES {
        let mut audio = shaped(&mut random);
        let damage = match random.one_in(3) {
            true => random.pick(DAMAGES),
            false => &UNDAMAGED,
        };
        (damage.apply)(&mut random, &mut audio);
        let (buffer, start) = shifted(&mut random, &audio.bytes());
        let (bytes, streams) = (&buffer[start..], audio.streams);
        let case = format!("input {number}: {}", damage.name);
        let told = check_packet(bytes, streams, &case);
        if damage.name == UNDAMAGED.name {
            assert_eq!(told, Ok(audio.contents), "{case}");
        }
        tally.add(told.err().unwrap_or(0));
        if let Ok(packets) = read_packets(bytes, streams) {
            frames.add(packets[0].frames());
            names_of(&packets)
                .into_iter()
                .for_each(|name| classes.add(name));
        }
    }
    let refusals = [BAD_STREAMS, ILLEGAL_PACKET, MIXED_LENGTHS];
    tally.finish("contents of packets", LEAST_CASES, &refusals);
    frames.finish("contents, by frames", 1, LEAST_OF_EACH);
    classes.finish(&names(), LEAST_OF_EACH);
}
