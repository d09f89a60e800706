//! Calls of the library that crop a stream and watch all that they are lent, held to what the rules say
//! that they leave.

use crate::crop::Whole;
use crate::ffi_crop;
use crate::ogg::NO_ROOM;
use crate::reading::Reading;
use crate::writing::{assert_same_bytes, old_bytes, BEFORE, BEHIND};
use std::fmt::Display;

/// Crops by the library into an output of `room` bytes, holds it to the crop that the rules tell of
/// that page, and gives the number returned.
pub fn check_crop(
    bytes: &[u8],
    page: u64,
    room: usize,
    told: Result<&[u8], u32>,
    case: impl Display,
) -> u32 {
    // A buffer that would hold the crop even if what is lent of it does not, so that bytes written all
    // the same are seen.
    let mut library = old_bytes(BEFORE + room.max(bytes.len()) + BEHIND);
    let mut rules = library.clone();
    let found = Reading::by_library(|[written]: &mut [u64; 1]| {
        ffi_crop::crop(bytes, page, &mut library[BEFORE..][..room], written)
    });
    let expected = match told {
        Ok(crop) if crop.len() <= room => {
            rules[BEFORE..][..crop.len()].copy_from_slice(crop);
            Reading::accepted([crop.len() as u64])
        }
        Ok(_) => Reading::refused(NO_ROOM),
        Err(number) => Reading::refused(number),
    };
    assert_eq!(found, expected, "page {page}, {room} bytes, {case}");
    assert_same_bytes(&library, &rules, &case);
    found.answer
}

/// Asks the library for the page to crop at, holds it to the rules and gives the number returned.
pub fn check_start(
    bytes: &[u8],
    whole: &Result<Whole, u32>,
    [last, position]: [u64; 2],
    case: impl Display,
) -> u32 {
    let found = Reading::by_library(|start| ffi_crop::crop_start(bytes, last, position, start));
    let told = match whole {
        Ok(whole) => whole.crop_start(last, position),
        &Err(number) => Err(number),
    };
    let expected = Reading::by_rules(told);
    assert_eq!(found, expected, "up to {last}, at {position}, {case}");
    found.answer
}
