//! Reading and writing of Ogg pages, straight from RFC 3533 and the rules in docs/PROMISES.md.
//! Written for clearness and independent of the library: its answers are what the library's are
//! held to.

/// The bytes are not exactly one whole page, or the version is not 0.
pub const NOT_A_PAGE: u32 = 3;
/// The page is whole but its checksum differs.
pub const WRONG_CHECKSUM: u32 = 4;
/// The output is shorter than what is to be written.
pub const NO_ROOM: u32 = 22;
/// The writer was given what is no page.
pub const ILLEGAL_PAGE: u32 = 23;

/// The length of a page without lacing values.
pub const HEAD: usize = 27;
/// The place of the checksum in a page.
pub const CHECKSUM: std::ops::Range<usize> = 22..26;
/// The length of the longest page.
pub const LONGEST: usize = HEAD + 255 + 255 * 255;

const POLYNOMIAL: u32 = 0x04c1_1db7;
const TABLE: [u32; 256] = table();

/// A page, or what a writer is asked to make one of: `flags` is as wide as the writer takes it.
#[derive(Clone, Debug, PartialEq, Eq)]
pub struct Page {
    pub flags: u64,
    pub granule: u64,
    pub serial: u32,
    pub sequence: u32,
    pub lacing: Vec<u8>,
    pub body: Vec<u8>,
}

impl Page {
    /// The length in bytes of the page once written.
    pub fn length(&self) -> usize {
        HEAD + self.lacing.len() + self.body.len()
    }

    /// The six numbers that reading gives.
    pub fn numbers(&self) -> [u64; 6] {
        [
            self.flags,
            self.granule,
            self.serial.into(),
            self.sequence.into(),
            self.lacing.len() as u64,
            self.body.len() as u64,
        ]
    }

    /// Whether the writer's rules take it.
    pub fn is_legal(&self) -> bool {
        self.flags <= 7 && self.lacing.len() <= 255 && sum(&self.lacing) == self.body.len()
    }
}

/// The sum of lacing values: the length of the body that they describe.
pub fn sum(lacing: &[u8]) -> usize {
    lacing.iter().map(|&value| usize::from(value)).sum()
}

/// The plain checksum, one bit at a time.
pub fn checksum_by_bits(bytes: &[u8]) -> u32 {
    bytes.iter().fold(0, |register, &byte| {
        shift_eight(register ^ u32::from(byte) << 24)
    })
}

/// The checksum of a page, with its own field taken as zero.
pub fn page_checksum(page: &[u8]) -> u32 {
    let before = checksum_from(0, &page[..CHECKSUM.start]);
    checksum_from(checksum_from(before, &[0; 4]), &page[CHECKSUM.end..])
}

/// Makes the checksum of a page right.
pub fn seal(page: &mut [u8]) {
    let right = page_checksum(page);
    page[CHECKSUM].copy_from_slice(&right.to_le_bytes());
}

/// The bytes of a page, of which only the low byte of the flags counts.
pub fn encode(page: &Page) -> Vec<u8> {
    let mut bytes = b"OggS\0".to_vec();
    bytes.push(page.flags as u8);
    bytes.extend(page.granule.to_le_bytes());
    bytes.extend(page.serial.to_le_bytes());
    bytes.extend(page.sequence.to_le_bytes());
    bytes.extend([0; 4]);
    bytes.push(page.lacing.len() as u8);
    bytes.extend(&page.lacing);
    bytes.extend(&page.body);
    seal(&mut bytes);
    bytes
}

/// The page that the bytes are, or the refusal's number.
pub fn read(bytes: &[u8]) -> Result<Page, u32> {
    let (page, stored) = split(bytes).ok_or(NOT_A_PAGE)?;
    if stored == page_checksum(bytes) {
        Ok(page)
    } else {
        Err(WRONG_CHECKSUM)
    }
}

/// The bytes to be written to an output of `room` bytes, or the refusal's number.
pub fn write(page: &Page, room: usize) -> Result<Vec<u8>, u32> {
    if !page.is_legal() {
        Err(ILLEGAL_PAGE)
    } else if room < page.length() {
        Err(NO_ROOM)
    } else {
        Ok(encode(page))
    }
}

/// The page and its stored checksum, if the bytes are exactly one whole page of version 0.
fn split(bytes: &[u8]) -> Option<(Page, u32)> {
    let mut rest = bytes;
    if take(&mut rest)? != *b"OggS" || take(&mut rest)? != [0] {
        return None;
    }
    let [flags] = take(&mut rest)?;
    let granule = u64::from_le_bytes(take(&mut rest)?);
    let serial = u32::from_le_bytes(take(&mut rest)?);
    let sequence = u32::from_le_bytes(take(&mut rest)?);
    let stored = u32::from_le_bytes(take(&mut rest)?);
    let [count] = take(&mut rest)?;
    let (lacing, body) = rest.split_at_checked(count.into())?;
    let page = Page {
        flags: flags.into(),
        granule,
        serial,
        sequence,
        lacing: lacing.to_vec(),
        body: body.to_vec(),
    };
    (sum(lacing) == body.len()).then_some((page, stored))
}

/// Takes `N` bytes off the front, if there are as many.
pub fn take<const N: usize>(rest: &mut &[u8]) -> Option<[u8; N]> {
    let (taken, after) = rest.split_first_chunk()?;
    *rest = after;
    Some(*taken)
}

/// The checksum going on from `register`, one byte at a time.
fn checksum_from(register: u32, bytes: &[u8]) -> u32 {
    bytes.iter().fold(register, |register, &byte| {
        register << 8 ^ TABLE[usize::from((register >> 24) as u8 ^ byte)]
    })
}

const fn shift_eight(mut register: u32) -> u32 {
    let mut bit = 0;
    while bit < 8 {
        let carry = register >> 31;
        register = (register << 1) ^ (carry * POLYNOMIAL);
        bit += 1;
    }
    register
}

const fn table() -> [u32; 256] {
    let mut table = [0; 256];
    let mut byte = 0;
    while byte < 256 {
        table[byte] = shift_eight((byte as u32) << 24);
        byte += 1;
    }
    table
}
