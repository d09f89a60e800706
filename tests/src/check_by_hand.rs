//! Streams put together by hand, and what checking them by the rules and by the library comes to.

use crate::by_hand::{head_of, page, NO_TAGS};
use crate::check::check;
use crate::check_calls::check_findings;
use crate::feeding::FIRST;
use crate::head;

/// The kind and the page of each finding.
pub type Found = Vec<(u64, u64)>;

/// The findings by the rules and by the library, in lists that hold them exactly, and the answers in
/// others.
pub fn checked(bytes: &[u8]) -> Result<Found, u32> {
    let told = check(bytes);
    let n = told.as_ref().map_or(0, Vec::len);
    let answer = told.as_ref().err().copied().unwrap_or(0);
    for rooms in [[n, n], [n + 1, n], [n, n + 1], [n + 5, n + 2]] {
        assert_eq!(check_findings(bytes, &told, rooms, "by hand"), answer);
    }
    let short = if n > 0 { 22 } else { answer };
    let less = n.saturating_sub(1);
    for rooms in [[less, n], [n, less], [less, n + 3], [0, n], [n, 0], [0, 0]] {
        assert_eq!(check_findings(bytes, &told, rooms, "by hand"), short);
    }
    told.map(|findings| findings.iter().map(|f| (f.kind, f.page)).collect())
}

/// The page of the identification header, with a pre-skip of 312.
pub fn head_page() -> Vec<u8> {
    page(FIRST, 0, 0, &[&head::encode(&head_of(312))])
}

/// Audio pages after two header pages.
pub fn stream(audio: &[Vec<u8>]) -> Vec<u8> {
    [head_page(), page(0, 0, 1, &[NO_TAGS]), audio.concat()].concat()
}
