//! The pieces of packets on a page, by its lacing values (RFC 3533), and pages made of pieces.

use crate::ogg::Page;

/// What of a packet is on one page.
pub struct Piece<'a> {
    pub bytes: &'a [u8],
    /// Whether the packet completes here.
    pub ends: bool,
}

/// The pieces of packets on a page.
pub fn pieces(page: &Page) -> Vec<Piece<'_>> {
    let mut pieces = Vec::new();
    let (mut start, mut end) = (0, 0);
    for &value in &page.lacing {
        end += usize::from(value);
        if value < 255 {
            let bytes = &page.body[start..end];
            pieces.push(Piece { bytes, ends: true });
            start = end;
        }
    }
    if start < end {
        let bytes = &page.body[start..end];
        pieces.push(Piece { bytes, ends: false });
    }
    pieces
}

/// The lacing values of a piece.
pub fn lacing(length: usize, ends: bool) -> Vec<u8> {
    let mut lacing = vec![255; length / 255];
    if ends {
        lacing.push((length % 255) as u8);
    }
    lacing
}

/// Puts pieces on a page in place of what it has; one that does not end its packet is a multiple of
/// 255 bytes.
pub fn put_pieces(page: &mut Page, pieces: &[(Vec<u8>, bool)]) {
    page.lacing.clear();
    page.body.clear();
    for (bytes, ends) in pieces {
        page.lacing.extend(lacing(bytes.len(), *ends));
        page.body.extend(bytes);
    }
}
