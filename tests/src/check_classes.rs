//! What checked streams are like, for the counts of the random runs: by their kinds of findings, and by
//! what these come of.

use crate::check::{
    comments, has_end, is_unfinished, replay_gain_name, Finding, HOLE, KINDS, LONG_TRIM, NAMES,
    NO_END, REPLAY_GAIN,
};
use crate::crop::Whole;
use crate::feeding::CONTINUED;
use crate::stamps::Entry;

/// The two kinds that cannot come together: samples are trimmed only where a page is marked last.
const APART: [u64; 2] = [NO_END, LONG_TRIM];

/// The kinds that findings are of, each once and in the order of the kinds.
pub fn kinds_of(findings: &[Finding]) -> Vec<u64> {
    let is_found = |kind: &u64| findings.iter().any(|finding| finding.kind == *kind);
    KINDS.into_iter().filter(is_found).collect()
}

/// All the sets of kinds that a stream can have.
pub fn kind_sets() -> Vec<Vec<u64>> {
    let sets = (0..1 << KINDS.len()).map(|bits: u32| {
        let places = (0..KINDS.len()).filter(|place| bits >> place & 1 == 1);
        places.map(|place| KINDS[place]).collect::<Vec<u64>>()
    });
    sets.filter(|set| !APART.iter().all(|kind| set.contains(kind)))
        .collect()
}

/// The class of the streams that have these kinds of findings, and perhaps others.
pub fn at_least(kinds: &[u64]) -> String {
    format!("at least {kinds:?}")
}

/// The class of those that have no others.
pub fn exactly(kinds: &[u64]) -> String {
    format!("exactly {kinds:?}")
}

/// The kinds one by one, and the pairs of them that can come together.
pub fn few_kinds() -> Vec<Vec<u64>> {
    let sets = kind_sets().into_iter();
    sets.filter(|set| [1, 2].contains(&set.len())).collect()
}

/// The classes of a stream by its kinds of findings.
pub fn kind_classes(findings: &[Finding]) -> Vec<String> {
    let kinds = kinds_of(findings);
    let has_all = |set: &Vec<u64>| set.iter().all(|kind| kinds.contains(kind));
    let few = few_kinds().into_iter().filter(has_all);
    let mut classes: Vec<String> = few.map(|set| at_least(&set)).collect();
    classes.push(exactly(&kinds));
    classes
}

/// What whole streams are like.
pub const SHAPES: [&str; 21] = [
    "headers only, tagged",
    "headers only, not tagged",
    "tagged comments over several pages",
    "several tags",
    "holes on several pages",
    "a hole on the last page",
    "unfinished, begun on the last page",
    "unfinished, begun before the last page",
    "unfinished, and no lacing values on the last page",
    "unfinished, and no packet completed",
    "unfinished, and samples trimmed on its page",
    "marked last, and nothing completed there",
    "not marked last, and nothing completed there",
    "one sample trimmed",
    "trimmed by a sample less than the last packet",
    "trimmed by the last packet",
    "trimmed by a sample more than the last packet",
    "trimmed into a third packet",
    "two packets or more trimmed and none left",
    "trimmed by more where no packet completed before",
    "trimmed where a packet completes that began before",
];

/// The page where an unfinished packet begins, which has the first lacing value after all that are below
/// 255.
fn unfinished_from(whole: &Whole) -> Option<usize> {
    let numbered = whole.pages.iter().enumerate();
    let values = numbered.flat_map(|(number, fed)| {
        let values = fed.page.lacing.iter();
        values.map(move |&value| (number, value))
    });
    let values: Vec<(usize, u8)> = values.collect();
    let end = values.iter().rposition(|(_, value)| *value < 255)?;
    values.get(end + 1).map(|(number, _)| *number)
}

/// The shapes that a whole stream has.
pub fn shapes(whole: &Whole, findings: &[Finding]) -> impl Iterator<Item = &'static str> {
    let is = [
        &of_headers(whole, findings)[..],
        &of_unfinished(whole),
        &of_trims(whole),
    ];
    let is = is.concat();
    assert_eq!(is.len(), SHAPES.len());
    let shapes = SHAPES.into_iter().zip(is);
    shapes.filter(|(_, is)| *is).map(|(name, _)| name)
}

fn of_headers(whole: &Whole, findings: &[Finding]) -> [bool; 6] {
    let is_tagged = kinds_of(findings).contains(&REPLAY_GAIN);
    let has_no_audio = whole.pages.len() == whole.headers;
    let last = whole.pages.len() as u64 - 1;
    let holes: Vec<&Finding> = findings.iter().filter(|f| f.kind == HOLE).collect();
    [
        has_no_audio && is_tagged,
        has_no_audio && !is_tagged,
        whole.headers > 2 && is_tagged,
        names(whole).len() > 1,
        holes.len() > 1,
        holes.iter().any(|finding| finding.page == last),
    ]
}

fn of_unfinished(whole: &Whole) -> [bool; 7] {
    let last = whole.pages.last().expect("a page");
    let is_audio = whole.pages.len() > whole.headers;
    let is_unfinished = is_unfinished(whole);
    let from = unfinished_from(whole).map(|page| page + 1 == whole.pages.len());
    let completes = whole.pages.iter().any(|fed| !fed.packets.is_empty());
    let is_idle = is_audio && last.packets.is_empty();
    [
        is_unfinished && from == Some(true),
        is_unfinished && from == Some(false),
        is_unfinished && last.page.lacing.is_empty(),
        is_unfinished && !completes,
        is_unfinished && last.trimmed > 0,
        is_idle && has_end(whole),
        is_idle && !has_end(whole),
    ]
}

fn of_trims(whole: &Whole) -> [bool; 8] {
    let (last, before) = whole.pages.split_last().expect("a page");
    let lengths: Vec<u64> = last.packets.iter().map(|packet| packet.length).collect();
    let length = lengths.last().copied().unwrap_or(0);
    let two: u64 = lengths.iter().rev().take(2).sum();
    let trimmed = last.trimmed;
    let earlier: Vec<&Entry> = before.iter().flat_map(|fed| &fed.packets).collect();
    let is_continued = last.page.flags & CONTINUED != 0;
    [
        trimmed == 1,
        trimmed > 0 && trimmed + 1 == length,
        trimmed > 0 && trimmed == length,
        trimmed == length + 1,
        trimmed > two,
        lengths.len() > 1 && trimmed == lengths.iter().sum(),
        trimmed > length && earlier.is_empty(),
        trimmed > 0 && is_continued,
    ]
}

/// The names of ReplayGain that the comments have, each as often as it comes.
pub fn names(whole: &Whole) -> Vec<&'static str> {
    let comments = comments(whole);
    let names = comments
        .iter()
        .filter_map(|comment| replay_gain_name(comment));
    names.collect()
}

/// The class of a stream whose only tag has one of the names.
pub fn named(name: &str) -> String {
    format!("only {name}")
}

pub fn name_classes() -> [String; 4] {
    NAMES.map(named)
}
