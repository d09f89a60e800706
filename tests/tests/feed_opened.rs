//! Two ways of telling the time agree: readers opened at every audio page of a stream list what the
//! full reader listed, and the kept counts are those of samples counted one by one.

use embulgri_tests::accepted::{packets, Count, Packet};
use embulgri_tests::feed_choice::{fault, room};
use embulgri_tests::head::Head;
use embulgri_tests::ogg::{self, Page};
use embulgri_tests::opened::{check_opened, Accepted, Full};
use embulgri_tests::opus;
use embulgri_tests::random::{times, Random};
use embulgri_tests::recording::{recording, Written};
use embulgri_tests::stamps::NO_POSITION;
use embulgri_tests::tally::{Tally, Versions};

const RECORDINGS: usize = 2_000;
const LEAST_OPENED: usize = 10_000;
const LEAST_OF_EACH_VERSION: usize = 20;

/// Feeds a recording to a full reader with wrong pages between, and gives the first page's header
/// and the audio pages that it accepted.
fn accepted(random: &mut Random, pages: &[Written]) -> (Head, Vec<Accepted>) {
    let mut full = Full::started();
    for written in pages {
        for _ in 0..random.below(3) {
            let wrong = fault(random, full.feeder.reader(), written);
            full.feed(&wrong.bytes, wrong.room);
        }
        full.feed(&ogg::encode(&written.page), room(random));
    }
    (full.head.expect("a first page"), full.stream)
}

/// Holds what the full reader listed to the stream's own packets, and the kept counts to the samples
/// counted one by one, after each page.
fn check_full(head: &Head, stream: &[Accepted], packets: &[Vec<Packet>]) {
    let mut count = Count::new(head.pre_skip);
    let mut kept = 0;
    for (accepted, packets) in stream.iter().zip(packets) {
        let read = |packet: &Packet| opus::read(&packet.bytes, head.streams);
        let told: Vec<(u64, u64)> = packets
            .iter()
            .map(|packet| read(packet).expect("a legal packet"))
            .map(|contents| (contents.samples, contents.frames))
            .collect();
        let entries = accepted.listed.iter();
        let listed: Vec<(u64, u64)> = entries.map(|e| (e.length, e.frames)).collect();
        assert_eq!(listed, told);
        if !packets.is_empty() {
            count.add(
                &accepted.page,
                told.iter().map(|(samples, _)| samples).sum(),
            );
            kept += accepted
                .listed
                .iter()
                .map(|e| i128::from(e.kept))
                .sum::<i128>();
            assert_eq!(kept, count.kept);
            assert_eq!(kept, count.kept_by_positions());
        }
    }
}

#[test]
fn readers_opened_at_every_page_list_what_the_full_reader_listed() {
    let mut random = Random::of_run(93);
    let mut tally = Tally::default();
    let mut versions = Versions::default();
    for _ in 0..RECORDINGS * times() {
        let recording = recording(&mut random);
        let (head, stream) = accepted(&mut random, &recording.pages);
        let pages: Vec<Page> = stream.iter().map(|a| a.page.clone()).collect();
        let packets = packets(&pages);
        check_full(&head, &stream, &packets);
        versions.add(head.version);
        for first in 0..stream.len() {
            let answers = check_opened(&mut random, &head, &stream, &packets, first);
            answers.into_iter().for_each(|answer| tally.add(answer));
        }
    }
    tally.finish(
        "pages to readers opened at each",
        LEAST_OPENED,
        &[NO_POSITION],
    );
    versions.finish("recordings opened, by version", 0, LEAST_OF_EACH_VERSION);
}
