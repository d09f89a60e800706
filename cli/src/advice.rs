//! What the kinds of findings are called and mean, in words that stand alone.

/// A kind of finding: its number, the word of its lines, and one sentence of what RFC 7845 advises
/// and what is noticed where that is not followed.
pub struct Advice {
    pub kind: u64,
    pub word: &'static str,
    pub sentence: &'static str,
}

/// In the order of their numbers.
pub const ADVICE: [Advice; 5] = [
    Advice {
        kind: 1,
        word: "unfinished",
        sentence: "by RFC 7845, 3, there is no reason for the last packet on the last page to go \
                   on: it never completes, so that players drop it, and the end of the sound is \
                   missing",
    },
    Advice {
        kind: 2,
        word: "no-end",
        sentence: "by RFC 7845, 3, a stream ends with a page that is marked 'end of stream': \
                   without it a player cannot tell a whole recording from one that was cut short, \
                   and plays the last packet to its end, since nothing is trimmed",
    },
    Advice {
        kind: 3,
        word: "trimmed",
        sentence: "by RFC 7845, 4.4, the samples that are discarded at the end should be no more \
                   than the last packet has: whole packets are stored that are never heard, and a \
                   player that trims one packet at most plays some of them",
    },
    Advice {
        kind: 4,
        word: "replaygain",
        sentence: "by RFC 7845, 5.2.1, the comments should have no REPLAYGAIN tags, in place of \
                   which there are R128 tags: some players apply them and others do not, some \
                   beside the R128 gain, so that the recording is too loud or too quiet",
    },
    Advice {
        kind: 5,
        word: "hole",
        sentence: "by RFC 7845, 4, granule positions count on by the samples of the packets, and \
                   gaps are to be filled with packets that ask for concealment (4.1): sound is \
                   missing before the page, and a player jumps or falls silent there, or shows \
                   times that are off",
    },
];

/// Of a kind, by its number; none where there is no such kind.
pub fn advice_of(kind: u64) -> Option<&'static Advice> {
    ADVICE.iter().find(|advice| advice.kind == kind)
}
