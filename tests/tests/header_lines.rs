//! Holds the two headers as lines of text to the rules in docs/RULES.md (section 13).

use embulgri_tests::damages::UNDAMAGED;
use embulgri_tests::demands::ROOMS;
use embulgri_tests::head::{self, Head, BAD_HEAD, BAD_MAPPING, PLACES};
use embulgri_tests::head_damages;
use embulgri_tests::head_inputs::{self, head_to_read, packet, version, with_matrix};
use embulgri_tests::head_mappings::{LEGAL, WRONG_MAPPINGS};
use embulgri_tests::header_text::{self, HIDDEN};
use embulgri_tests::line_calls::{check_headers, found_text};
use embulgri_tests::ogg::NO_ROOM;
use embulgri_tests::random::{times, Random};
use embulgri_tests::tags::{encode, Tags, BAD_TAGS, LONGEST};
use embulgri_tests::tags_damages;
use embulgri_tests::tags_inputs::{self, tags};
use embulgri_tests::tally::{Classes, Tally};

const CASES: usize = 120_000;
const LEAST_CASES: usize = 100_000;
const LEAST_OF_EACH_FAMILY: usize = 1_000;
/// How many characters are hidden, added up by hand.
const HIDDEN_CHARACTERS: usize = 137_703;

/// A header of one channel in family 0, with this gain.
fn head_of(gain: i16) -> Vec<u8> {
    let fields = [1, 1, 312, 48_000, gain.cast_unsigned().into(), 0, 1, 0];
    head::encode(&Head::new(fields, [0; PLACES], Vec::new()))
}

fn comments_of(vendor: &str, comments: &[&str]) -> Vec<u8> {
    encode(&Tags {
        vendor: vendor.as_bytes().to_vec(),
        comments: comments.iter().map(|c| c.as_bytes().to_vec()).collect(),
    })
}

/// What a comment is shown as, with what follows it.
fn shown(comment: &str) -> String {
    let text = found_text(&head_of(0), &comments_of("", &[comment]));
    let (_, after) = text
        .split_once("\ncomments 1\ncomment ")
        .expect("a comment");
    after.strip_suffix('\n').expect("a line feed").to_string()
}

/// The line of a header that begins with a name.
fn line(head: &[u8], name: &str) -> String {
    let text = found_text(head, &comments_of("", &[]));
    let mut lines = text.lines().filter(|line| line.starts_with(name));
    lines.next().expect("a line of this name").to_string()
}

#[test]
fn the_headers_of_a_recording() {
    let comments = comments_of(
        "libopus 1.3.1, libopusenc 0.2.1",
        &["ENCODER=opusenc from opus-tools 0.2", "date=2024-03-01"],
    );
    let text = "version 1\nchannels 1\npreskip 312\nrate 48000\ngain 0\t0.00000000 dB\nfamily 0\n\
                streams 1\ncoupled 0\nmapping 0\nvendor libopus 1.3.1, libopusenc 0.2.1\n\
                comments 2\ncomment ENCODER=opusenc from opus-tools 0.2\n\
                comment date=2024-03-01\n";
    assert_eq!(found_text(&head_of(0), &comments), text);
}

#[test]
fn only_the_places_of_the_mapping_that_are_used_are_shown() {
    let mut mapping = [0; PLACES];
    mapping[..3].copy_from_slice(&[4, 255, 10]);
    let fields = [15, 3, 65_535, u32::MAX.into(), 0, 255, 200, 55];
    let mut bytes = head::encode(&Head::new(fields, mapping, Vec::new()));
    bytes.extend(b"more of version 15");
    assert_eq!(line(&bytes, "mapping"), "mapping 4 255 10");
    assert_eq!(line(&bytes, "rate"), "rate 4294967295");
    assert_eq!(line(&bytes, "coupled"), "coupled 55");
}

#[test]
fn a_matrix_is_shown_in_place_of_a_mapping() {
    let fields = [1, 1, 0, 0, 0, 3, 2, 1];
    let matrix = [0xff, 0xff, 0x00, 0x80, 0xff, 0x7f].to_vec();
    let bytes = head::encode(&Head::new(fields, [0; PLACES], matrix));
    assert_eq!(line(&bytes, "ma"), "matrix -1 -32768 32767");
}

#[test]
fn a_gain_is_shown_in_decibels_exactly() {
    let gains = [
        (0, "0\t0.00000000 dB"),
        (1, "1\t0.00390625 dB"),
        (-1, "-1\t-0.00390625 dB"),
        (256, "256\t1.00000000 dB"),
        (-573, "-573\t-2.23828125 dB"),
        (32_767, "32767\t127.99609375 dB"),
        (-32_768, "-32768\t-128.00000000 dB"),
    ];
    for (gain, text) in gains {
        assert_eq!(line(&head_of(gain), "gain"), format!("gain {text}"));
    }
}

#[test]
fn every_gain_is_shown_in_a_header_and_after_a_comment() {
    for gain in i16::MIN..=i16::MAX {
        let comment = format!("R128_ALBUM_GAIN={gain}");
        let comments = comments_of("v", &[&comment]);
        let text = header_text::text(&head_of(gain), &comments).expect("right headers");
        assert_eq!(
            check_headers(&head_of(gain), &comments, text.len(), gain),
            0
        );
        let decibels = f64::from(gain) / 256.0;
        let sign = if gain < 0 { "-" } else { "" };
        let after = format!("{comment}\t{sign}{:.8} dB\n", decibels.abs());
        assert!(text.ends_with(&after), "{gain}");
    }
}

#[test]
fn decibels_follow_a_comment_that_is_one_of_the_two_gains() {
    let gains = [
        ("R128_TRACK_GAIN=-573", "-2.23828125 dB"),
        ("r128_album_gain=+5", "0.01953125 dB"),
        ("R128_Track_Gain=000256", "1.00000000 dB"),
        ("R128_ALBUM_GAIN=-0", "0.00000000 dB"),
    ];
    for (comment, decibels) in gains {
        assert_eq!(shown(comment), format!("{comment}\t{decibels}"));
    }
    let others = [
        "R128_TRACK_GAIN",
        "R128_TRACK_GAIN=",
        "R128_TRACK_GAIN=+",
        "R128_TRACK_GAIN= 5",
        "R128_TRACK_GAIN=0000005",
        "R128_TRACK_GAIN=32768",
        "R128_TRACK_GAIN=-32769",
        "R128_TRACK_GAINS=5",
        "XR128_TRACK_GAIN=5",
        "R128_TRACK_GAIN =5",
        "GAIN=5",
        "=5",
        "",
        "R128_TRACK_GAIN=5=5",
        "r128-track-gain=5",
        "R128_TRACK_GAIN=5dB",
    ];
    for comment in others {
        assert_eq!(shown(comment), comment);
    }
}

#[test]
fn a_text_is_shown_escaped() {
    let texts = [
        (r"a\b\\", r"a\\b\\\\"),
        ("\0\t\n\r\u{1b}[31m", r"\x00\x09\x0A\x0D\x1B[31m"),
        (
            "~\u{7f}\u{80}\u{9f}\u{a0}",
            "~\\x7F\\xC2\\x80\\xC2\\x9F\u{a0}",
        ),
        ("\u{ac}\u{ad}\u{ae}", "\u{ac}\\xC2\\xAD\u{ae}"),
        ("é€🍋", "é€🍋"),
        ("\u{200b}\u{202e}", r"\xE2\x80\x8B\xE2\x80\xAE"),
        ("\u{feff}\u{fffd}", "\\xEF\\xBB\\xBF\u{fffd}"),
        (
            "\u{d7ff}\u{e000}\u{f900}",
            "\u{d7ff}\\xEE\\x80\\x80\u{f900}",
        ),
        ("\u{10ffff}\u{effff}", "\\xF4\\x8F\\xBF\\xBF\u{effff}"),
        (r"\x41", r"\\x41"),
    ];
    for (text, escaped) in texts {
        assert_eq!(shown(text), escaped);
        let lines = found_text(&head_of(0), &comments_of(text, &[]));
        assert!(lines.ends_with(&format!("\nvendor {escaped}\ncomments 0\n")));
    }
}

#[test]
fn every_character_is_shown_or_hidden() {
    let all: Vec<char> = ('\0'..=char::MAX).collect();
    let is_hidden = |c: &&char| HIDDEN.iter().any(|range| range.contains(c));
    assert_eq!(all.iter().filter(is_hidden).count(), HIDDEN_CHARACTERS);
    for part in all.chunks(5_000) {
        let text: String = part.iter().collect();
        let comments = comments_of(&text, &[&format!("a={text}")]);
        found_text(&head_of(0), &comments);
    }
}

#[test]
fn every_length_of_the_output_is_enough_or_too_short() {
    let mut random = Random::of_run(118);
    let heads = head_inputs::legal_set(&mut random);
    let mut heads = heads.iter().filter(|head| head.length() < 100).cycle();
    for tags in tags_inputs::legal_set() {
        let head = head::encode(heads.next().expect("a header"));
        let comments = encode(&tags);
        let length = found_text(&head, &comments).len();
        for room in 0..=length + 100 {
            let answer = check_headers(&head, &comments, room, "every length");
            assert_eq!(answer, if room < length { NO_ROOM } else { 0 });
        }
    }
}

#[test]
fn the_first_refusal_that_holds_is_given() {
    let mut wrong = head_of(0);
    wrong[head::CHANNELS] = 3;
    let (right, comments) = (head_of(0), comments_of("v", &["a=b"]));
    let refused: [(&[u8], &[u8], u32); 6] = [
        (b"OpusHead", b"OpusTags", BAD_HEAD),
        (&wrong, b"OpusTags", BAD_MAPPING),
        (&wrong, &comments, BAD_MAPPING),
        (&right, b"OpusTags", BAD_TAGS),
        (&comments, &right, BAD_HEAD),
        (&right, &comments, NO_ROOM),
    ];
    for (head, comments, number) in refused {
        assert_eq!(check_headers(head, comments, 0, "no room"), number);
        let answer = check_headers(head, comments, 4_000, "room");
        assert_eq!(answer, if number == NO_ROOM { 0 } else { number });
    }
}

#[test]
fn the_longest_packets_are_shown() {
    let mut random = Random::of_run(119);
    let matrix = head::encode(&with_matrix(&mut random, 121, (126, 126)));
    let hidden = "\u{1}".repeat(LONGEST - 16);
    let comments = comments_of(&hidden, &[]);
    assert_eq!(comments.len(), LONGEST);
    let text = found_text(&matrix, &comments);
    assert!(text.len() > 4 * (LONGEST - 16) + 30_000);
    for room in [text.len() - 1, 0, 262_144] {
        let enough = room >= text.len();
        let answer = check_headers(&matrix, &comments, room, "the longest");
        assert_eq!(answer, if enough { 0 } else { NO_ROOM });
    }
}

/// An identification header packet, mostly right.
fn any_head(random: &mut Random) -> Vec<u8> {
    let mut head = head_to_read(random);
    let (mapping, damage) = match random.below(16) {
        0..=1 => (random.pick(WRONG_MAPPINGS), &UNDAMAGED),
        2 => (&LEGAL, random.pick(head_damages::DAMAGES)),
        _ => (&LEGAL, &UNDAMAGED),
    };
    (mapping.apply)(random, &mut head);
    head.version = version(random);
    let mut bytes = packet(random, &head);
    (damage.apply)(random, &mut bytes);
    bytes
}

/// A comment header packet, mostly right.
fn any_comments(random: &mut Random) -> Vec<u8> {
    let mut tags = tags(random);
    if random.one_in(16) {
        (random.pick(tags_damages::WRONG_CHANGES).apply)(random, &mut tags);
    }
    let mut bytes = encode(&tags);
    if random.one_in(16) {
        (random.pick(tags_damages::DAMAGES).apply)(random, &mut bytes);
    }
    bytes
}

#[test]
fn any_headers_are_shown_as_the_rules_say() {
    let mut random = Random::of_run(120);
    let mut tally = Tally::default();
    let mut families = Classes::default();
    for number in 0..CASES * times() {
        let (head, comments) = (any_head(&mut random), any_comments(&mut random));
        let lent = random.pick(ROOMS);
        let mut room = header_text::text(&head, &comments).map_or(300, |text| text.len());
        (lent.apply)(&mut random, &mut room);
        let case = format!("headers {number}, output {}", lent.name);
        let answer = check_headers(&head, &comments, room, case);
        tally.add(answer);
        if answer == 0 {
            families.add(format!("headers shown of family {}", head[head::FAMILY]));
        }
    }
    let refusals = [BAD_HEAD, BAD_MAPPING, BAD_TAGS, NO_ROOM];
    tally.finish("headers shown", LEAST_CASES, &refusals);
    let known = [0, 1, 2, 3, 255].map(|family| format!("headers shown of family {family}"));
    families.finish(&known, LEAST_OF_EACH_FAMILY);
}
