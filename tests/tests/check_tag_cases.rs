//! Findings of tags worked out by hand, of comment headers on one page and on several.

use embulgri_tests::by_hand::{page, SOUND};
use embulgri_tests::check_by_hand::{checked, head_page, Found};
use embulgri_tests::feeding::{CONTINUED, LAST, NO_GRANULE};
use embulgri_tests::tags::{encode, Tags, LONGEST};

fn packet_of(vendor: &str, comments: &[&str]) -> Vec<u8> {
    encode(&Tags {
        vendor: vendor.as_bytes().to_vec(),
        comments: comments.iter().map(|c| c.as_bytes().to_vec()).collect(),
    })
}

/// A stream of two header pages and one audio page, marked last, with this comment packet.
fn commented(packet: &[u8]) -> Vec<u8> {
    let audio = page(LAST, 960, 2, &[SOUND]);
    [head_page(), page(0, 0, 1, &[packet]), audio].concat()
}

/// A stream whose only finding can be a tag, with these comments.
fn tagged(comments: &[&str]) -> Result<Found, u32> {
    checked(&commented(&packet_of("v", comments)))
}

#[test]
fn headers_alone_have_no_end_and_perhaps_a_tag_on_the_same_page() {
    let packet = packet_of("v", &["REPLAYGAIN_TRACK_GAIN=-7.03 dB"]);
    let bytes = [head_page(), page(0, 0, 1, &[&packet])].concat();
    assert_eq!(checked(&bytes), Ok(vec![(2, 1), (4, 1)]));
    let long = packet_of(&"v".repeat(500), &["a=1", "REPLAYGAIN_TRACK_GAIN=1"]);
    let pages = [
        head_page(),
        page(0, NO_GRANULE, 1, &[&long[..255]]),
        page(CONTINUED, NO_GRANULE, 2, &[&long[255..510]]),
        page(CONTINUED, 0, 3, &[&long[510..]]),
    ];
    assert_eq!(checked(&pages.concat()), Ok(vec![(2, 3), (4, 3)]));
    let audio = page(LAST, 960, 4, &[SOUND]);
    let bytes = [pages.concat(), audio].concat();
    assert_eq!(checked(&bytes), Ok(vec![(4, 3)]));
    assert_eq!(checked(&pages[..3].concat()), Err(24));
}

#[test]
fn each_of_the_four_names_is_a_tag_in_any_case_and_told_once() {
    let found = Ok(vec![(4, 1)]);
    let tags = [
        "REPLAYGAIN_TRACK_GAIN=-7.03 dB",
        "REPLAYGAIN_TRACK_PEAK=0.988553",
        "REPLAYGAIN_ALBUM_GAIN=",
        "REPLAYGAIN_ALBUM_PEAK==",
        "replaygain_track_gain=x",
        "ReplayGain_Track_Peak=x",
        "rEPLAYgAIN_aLBUM_gAIN=x",
        "replaygain_ALBUM_peak=€",
    ];
    for tag in tags {
        assert_eq!(tagged(&[tag]), found, "{tag}");
        assert_eq!(tagged(&[tag, "a=1", "b"]), found, "{tag} is the first");
        assert_eq!(tagged(&["a=1", tag, "b"]), found, "{tag} is between");
        assert_eq!(tagged(&["a=1", "", tag]), found, "{tag} is the last");
        assert_eq!(tagged(&[tag, tag]), found, "{tag} twice");
    }
    assert_eq!(tagged(&tags), found);
}

#[test]
fn what_is_nearly_a_tag_is_none() {
    let comments = [
        "",
        "=",
        "REPLAYGAIN_TRACK_GAIN",
        "REPLAYGAIN_TRACK_GAIN: 1",
        "REPLAYGAIN_TRACK_GAI=1",
        "REPLAYGAIN_TRACK_GAINS=1",
        "REPLAYGAIN_TRACK_GAIN =1",
        " REPLAYGAIN_TRACK_GAIN=1",
        "EPLAYGAIN_TRACK_GAIN=1",
        "REPLAYGAIN-TRACK-GAIN=1",
        "REPLAYGAIN TRACK GAIN=1",
        "REPLAYGAIN_ALBUM_PEEK=1",
        "REPLAYGAIN_ALBUM_PEA[=1",
        "REPLAYGAIN_ALBUM=PEAK=1",
        "REPLAYGAIN_REFERENCE_LOUDNESS=89.0 dB",
        "=REPLAYGAIN_TRACK_GAIN=1",
        "COMMENT=REPLAYGAIN_TRACK_GAIN=1",
        "R128_TRACK_GAIN=1",
    ];
    for comment in comments {
        assert_eq!(tagged(&[comment]), Ok(vec![]), "{comment}");
    }
    assert_eq!(tagged(&comments), Ok(vec![]));
}

#[test]
fn a_tag_that_is_no_comment_is_none() {
    let vendor = packet_of("REPLAYGAIN_TRACK_GAIN=1", &[]);
    assert_eq!(checked(&commented(&vendor)), Ok(vec![]));
    let mut fewer = packet_of("", &["a=1", "REPLAYGAIN_TRACK_GAIN=1"]);
    assert_eq!(checked(&commented(&fewer)), Ok(vec![(4, 1)]));
    fewer[12] = 1;
    assert_eq!(checked(&commented(&fewer)), Ok(vec![]), "after the last");
}

#[test]
fn a_name_with_other_characters_is_refused() {
    let names = [
        "REPLAYGAIN\u{7f}TRACK_GAIN=1",
        "REPLAYGAIN_TRAC\u{212a}_GAIN=1",
    ];
    for name in names {
        assert_eq!(tagged(&[name]), Err(14), "{name:?} is no name");
    }
}

/// A comment packet of the largest length, over six pages, whose tag is its very end, and among so many
/// comments that their number takes two bytes.
#[test]
fn a_tag_ends_the_longest_comments() {
    let tag = "REPLAYGAIN_ALBUM_PEAK=1";
    let mut comments = vec!["a=1"; 1_000];
    comments.push(tag);
    let rest = LONGEST - packet_of("", &comments).len();
    let packet = packet_of(&"v".repeat(rest), &comments);
    let parts: Vec<&[u8]> = packet.chunks(44 * 255).collect();
    let (last, before) = parts.split_last().expect("parts");
    let mut bytes = page(0, NO_GRANULE, 1, &[before[0]]);
    for (part, number) in before[1..].iter().zip(2..) {
        bytes.extend(page(CONTINUED, NO_GRANULE, number, &[part]));
    }
    bytes.extend(page(CONTINUED, 0, 6, &[last]));
    bytes.extend(page(LAST, 960, 7, &[SOUND]));
    assert_eq!((packet.len(), parts.len()), (61_440, 6));
    let bytes = [head_page(), bytes].concat();
    assert_eq!(checked(&bytes), Ok(vec![(4, 6)]));
}
