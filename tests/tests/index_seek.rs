//! Holds seeking in an index to the rules in docs/RULES.md (section 15): the record found, the probes and
//! what is refused, in lists of any numbers; and a reader opened at the record found lists what the full
//! reader listed.

use embulgri_tests::accepted::packets;
use embulgri_tests::feed_choice::room;
use embulgri_tests::head::Head;
use embulgri_tests::index::{Index, Sought, Unsought, COLUMNS, FALLING_GRANULE, PRE_ROLL};
use embulgri_tests::index_calls::{check_build, check_count, check_seek};
use embulgri_tests::ogg::{self, Page, NO_ROOM};
use embulgri_tests::opened::{check_opened, Accepted, Full};
use embulgri_tests::random::{times, Random};
use embulgri_tests::recording::recording;
use embulgri_tests::stamps::NO_POSITION;
use embulgri_tests::tally::{say, Classes, Spread, Tally};

const MOST_RECORDS: usize = 70;
const INDEXES_OF_EACH: usize = 24;
const SEEKS: usize = 200_000;
const LEAST_OF_EACH: usize = 1_000;
const LEAST_OF_EACH_PROBES: usize = 100;
const RECORDINGS: usize = 1_000;
const LEAST_OPENED: usize = 2_000;
const LEAST_BEGINS: usize = 500;
const LEAST_WITHOUT_POSITION: usize = 1_000;

/// Targets below, at and above the pre-roll, and the largest.
const ENDS: [u64; 5] = [0, PRE_ROLL - 1, PRE_ROLL, PRE_ROLL + 1, u64::MAX];

/// Granule positions that do not fall, in one of the ways that they lie.
fn rising(random: &mut Random, count: usize) -> Vec<u64> {
    let way = random.below(6);
    let same = random.field();
    let mut granules: Vec<u64> = (0..count)
        .map(|_| match way {
            0 => random.number(),
            1 => random.below(2 * count) as u64,
            2 => random.below(8_000) as u64,
            3 => random.below(1_000_000) as u64,
            4 => u64::MAX - random.below(20_000) as u64,
            _ => same,
        })
        .collect();
    granules.sort_unstable();
    granules
}

/// An index with these granule positions. The places and sequence numbers can be anything.
fn of_granules(random: &mut Random, granules: Vec<u64>) -> Index {
    let mut index = Index::default();
    for granule in granules {
        index.push(granule, random.field(), random.field() as u32);
    }
    index
}

fn any_index(random: &mut Random, count: usize) -> Index {
    let granules = rising(random, count);
    of_granules(random, granules)
}

/// How many binary digits a number has.
fn digits(number: usize) -> u64 {
    (usize::BITS - number.leading_zeros()).into()
}

/// What a seek tells by its kind.
fn kind(told: Sought, target: u64) -> &'static str {
    match told.record {
        Some(_) => "record found",
        None if target < PRE_ROLL => "begin, target below the pre-roll",
        None => "begin",
    }
}

const KINDS: [&str; 3] = ["record found", "begin, target below the pre-roll", "begin"];

#[test]
fn every_target_around_each_record_finds_the_last_one_early_enough() {
    let mut random = Random::of_run(151);
    let mut classes = Classes::default();
    for count in 0..=MOST_RECORDS {
        let mut most = 0;
        for number in 0..INDEXES_OF_EACH * times() {
            let index = any_index(&mut random, count);
            let around = index.granules.iter().flat_map(|granule| {
                let target = granule.wrapping_add(PRE_ROLL);
                [target.wrapping_sub(1), target, target.wrapping_add(1)]
            });
            for target in around.chain(ENDS) {
                let told = check_seek(&index, target, format!("{number} of {count} records"));
                let sought = told.expect("granule positions that do not fall");
                assert!(sought.probes <= digits(count), "{sought:?} of {count}");
                most = most.max(sought.probes);
                classes.add(kind(sought, target).to_string());
            }
        }
        assert_eq!(most, digits(count), "the most probes of {count} records");
    }
    classes.finish(&KINDS.map(str::to_string), LEAST_OF_EACH);
}

#[test]
fn a_fall_at_every_place_is_told() {
    let mut random = Random::of_run(152);
    let mut tally = Tally::default();
    for count in 2..=MOST_RECORDS {
        for place in 1..count {
            let mut granules = rising(&mut random, count);
            for granule in &mut granules {
                *granule = (*granule).max(1);
            }
            let below = random.number() % granules[place - 1];
            granules[place] = *random.pick(&[0, below, granules[place - 1] - 1]);
            for granule in &mut granules[place + 1..] {
                if random.one_in(4) {
                    *granule = random.field();
                }
            }
            let index = of_granules(&mut random, granules);
            for target in ENDS.into_iter().chain([random.number()]) {
                let told = check_seek(&index, target, format!("fall at {place} of {count}"));
                assert_eq!(told, Err(Unsought::Falling(place as u64)));
                tally.add(FALLING_GRANULE);
            }
        }
    }
    tally.print("seeks where granule positions fall");
}

#[test]
fn lists_of_different_lengths_are_refused_before_all_else() {
    let mut random = Random::of_run(153);
    let mut tally = Tally::default();
    for lengths in 0..6_usize.pow(COLUMNS as u32) {
        let [granules, places, sequences] = [lengths % 6, lengths / 6 % 6, lengths / 36];
        let mut index = any_index(&mut random, 6);
        if random.one_in(2) {
            index.granules.reverse();
        }
        index.granules.truncate(granules);
        index.places.truncate(places);
        index.sequences.truncate(sequences);
        for target in ENDS {
            let told = check_seek(&index, target, format!("{:?} places", index.lengths()));
            let is_even = index.lengths() == [granules; COLUMNS];
            assert_eq!(told == Err(Unsought::Unequal), !is_even);
            tally.add(told.map_or_else(Unsought::number, |_| 0));
        }
    }
    tally.print("seeks in lists of all lengths");
    tally.has_all(&[0, NO_ROOM, FALLING_GRANULE]);
}

/// An index of any length, mostly of few records, seldom falling, and seldom with lists of different
/// lengths.
fn index_of_run(random: &mut Random) -> Index {
    let count = match random.below(16) {
        0 => random.below(3_000),
        _ => random.below(MOST_RECORDS + 1),
    };
    let mut index = any_index(random, count);
    if count > 1 && random.one_in(6) {
        let place = random.within(1..=count - 1);
        index.granules[place] = random.number() % index.granules[place - 1].max(1);
    }
    if count > 0 && random.one_in(6) {
        let less = random.below(count);
        match random.below(3) {
            0 => index.granules.truncate(less),
            1 => index.places.truncate(less),
            _ => index.sequences.truncate(less),
        }
    }
    index
}

#[test]
fn any_lists_are_sought_in_by_the_rules() {
    let mut random = Random::of_run(154);
    let mut tally = Tally::default();
    let mut classes = Classes::default();
    let mut probes: Spread<13> = Spread::default();
    for number in 0..SEEKS * times() {
        let index = index_of_run(&mut random);
        let near = match index.count() {
            0 => 0,
            count => index.granules[random.below(count)],
        };
        let target = match random.below(8) {
            0 => random.number(),
            1 => *random.pick(&ENDS),
            2 => random.below(20_000) as u64,
            _ => near.wrapping_add(PRE_ROLL + random.below(7) as u64 - 3),
        };
        let told = check_seek(&index, target, format!("seek {number}"));
        tally.add(told.map_or_else(Unsought::number, |_| 0));
        if let Ok(sought) = told {
            classes.add(kind(sought, target).to_string());
            probes.add(sought.probes);
        }
    }
    tally.finish("seeks", SEEKS, &[NO_ROOM, FALLING_GRANULE]);
    classes.finish(&KINDS.map(str::to_string), LEAST_OF_EACH);
    probes.finish("seeks, by probes", 0, LEAST_OF_EACH_PROBES);
}

/// Targets that find records of an index, and some that do not.
fn targets(random: &mut Random, index: &Index) -> Vec<u64> {
    let mut targets = vec![*random.pick(&ENDS)];
    for _ in 0..3 {
        if let Some(last) = index.count().checked_sub(1) {
            let near = index.granules[random.within(0..=last)];
            let later = near.saturating_add(PRE_ROLL);
            targets.push(later.saturating_add(*random.pick(&[0, 0, 1, 960, 5_000])));
        }
    }
    targets
}

/// A whole stream, and what the full reader listed of it.
struct Recorded {
    bytes: Vec<u8>,
    head: Head,
    /// The audio pages, and where they start.
    stream: Vec<Accepted>,
    starts: Vec<u64>,
}

fn recorded(random: &mut Random) -> Recorded {
    let recording = recording(random);
    let mut full = Full::started();
    let (mut bytes, mut starts) = (Vec::new(), Vec::new());
    for written in &recording.pages {
        let page = ogg::encode(&written.page);
        full.feed(&page, room(random));
        starts.push(bytes.len() as u64);
        bytes.extend(page);
    }
    let starts = starts.split_off(recording.headers);
    assert_eq!(full.stream.len(), starts.len());
    Recorded {
        bytes,
        head: full.head.expect("a first page"),
        stream: full.stream,
        starts,
    }
}

impl Recorded {
    /// The number of the audio page at a place. The buffer goes on with it and the later ones.
    fn page_at(&self, place: u64) -> usize {
        let first = self.starts.iter().position(|&start| start == place);
        let first = first.expect("the place of an audio page");
        let later = self.stream[first..].iter();
        let later: Vec<u8> = later.flat_map(|a| ogg::encode(&a.page)).collect();
        assert!(self.bytes[place as usize..] == later);
        first
    }
}

#[test]
fn readers_opened_at_the_record_found_list_what_the_full_reader_listed() {
    let mut random = Random::of_run(155);
    let mut tally = Tally::default();
    let (mut opened, mut begins) = (0, 0);
    for number in 0..RECORDINGS * times() {
        let recorded = recorded(&mut random);
        let Recorded { head, stream, .. } = &recorded;
        let pages: Vec<Page> = stream.iter().map(|a| a.page.clone()).collect();
        let packets = packets(&pages);
        let rooms = [check_count(&recorded.bytes, number); COLUMNS];
        let index = check_build(&recorded.bytes, rooms, number).expect("a whole stream");
        for target in targets(&mut random, &index) {
            let sought = check_seek(&index, target, number).expect("an index of a stream");
            let Some(record) = sought.record else {
                begins += 1;
                continue;
            };
            let first = recorded.page_at(index.places[record]);
            let answers = check_opened(&mut random, head, stream, &packets, first);
            answers.into_iter().for_each(|answer| tally.add(answer));
            opened += 1;
        }
    }
    let counts = format!("{opened}, at the begin: {begins}");
    say(&format!("readers opened at a record: {counts}"));
    assert!(opened >= LEAST_OPENED && begins >= LEAST_BEGINS);
    let name = "pages to readers opened at a record";
    tally.finish_by(name, LEAST_OPENED, &[NO_POSITION], LEAST_WITHOUT_POSITION);
}
