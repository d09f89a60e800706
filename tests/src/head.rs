//! Reading and writing of identification headers, straight from RFC 7845 (section 5.1), RFC 8486
//! (section 3) and the rules in docs/PROMISES.md. Written for clearness and independent of the
//! library: its answers are what the library's are held to.

use crate::ogg::{take, NO_ROOM};
use crate::tags::LONGEST;

/// The signature is wrong, the version is not read, or the length is not one that the version allows.
pub const BAD_HEAD: u32 = 12;
/// The header is whole but its channel mapping is wrong.
pub const BAD_MAPPING: u32 = 13;
/// The writer was given what it does not write, or opening part way what reading never gives.
pub const UNFIT_FIELDS: u32 = 23;

/// The last version that is read: the upper four bits of the byte are zero.
pub const LAST_READ: u64 = 15;
/// The last version whose headers end with their fields. Later ones may have more bytes.
pub const LAST_EXACT: u64 = 1;
/// The version that is written.
pub const WRITTEN: u64 = 1;

/// The length of a header without a channel mapping table.
pub const SHORTEST: usize = 19;
/// The places in a header of its version, its number of channels, its family and its two counts, and
/// of the indices or the matrix after them.
pub const VERSION: usize = 8;
pub const CHANNELS: usize = 9;
pub const FAMILY: usize = 18;
pub const STREAMS: usize = 19;
pub const COUPLED: usize = 20;
pub const TABLE: usize = 21;

/// The families of ambisonics: the channels themselves, and channels mixed by a matrix.
pub const AMBISONICS: u64 = 2;
pub const MATRIX: u64 = 3;

/// The widths in bits of the eight fields in their order.
pub const WIDTHS: [u32; 8] = [8, 8, 16, 32, 16, 8, 8, 8];
/// The places of a channel mapping.
pub const PLACES: usize = 255;
/// The index of a channel that is silent.
pub const SILENCE: u8 = 255;

/// A header, or what a writer is asked to make one of: the fields are as wide as the writer takes
/// them. The output gain is its 16 bits. The matrix is its bytes, none in a family that has no matrix.
#[derive(Clone, Debug, PartialEq, Eq)]
pub struct Head {
    pub version: u64,
    pub channels: u64,
    pub pre_skip: u64,
    pub rate: u64,
    pub gain: u64,
    pub family: u64,
    pub streams: u64,
    pub coupled: u64,
    pub mapping: [u8; PLACES],
    pub matrix: Vec<u8>,
}

impl Head {
    pub fn new(fields: [u64; 8], mapping: [u8; PLACES], matrix: Vec<u8>) -> Head {
        let [version, channels, pre_skip, rate, gain, family, streams, coupled] = fields;
        Head {
            version,
            channels,
            pre_skip,
            rate,
            gain,
            family,
            streams,
            coupled,
            mapping,
            matrix,
        }
    }

    /// The same mapping and matrix with other fields.
    pub fn with_fields(&self, fields: [u64; 8]) -> Head {
        Head::new(fields, self.mapping, self.matrix.clone())
    }

    /// The eight numbers that reading gives.
    pub fn fields(&self) -> [u64; 8] {
        [
            self.version,
            self.channels,
            self.pre_skip,
            self.rate,
            self.gain,
            self.family,
            self.streams,
            self.coupled,
        ]
    }

    /// The length in bytes of the header once written, by the low bits of the fields.
    pub fn length(&self) -> usize {
        let channels = usize::from(self.channels as u8);
        let [streams, coupled] = [self.streams, self.coupled].map(|count| count as u8);
        length_of(self.family as u8, channels, [streams, coupled])
    }

    /// How many places of the mapping are indices.
    pub fn indices(&self) -> usize {
        match self.family {
            MATRIX => 0,
            _ => self.channels as usize,
        }
    }

    /// Whether the writer takes it.
    pub fn is_writable(&self) -> bool {
        self.version == WRITTEN
            && self.is_legal_but_for_its_version()
            && self.matrix.len() == self.matrix_length()
    }

    /// Whether reading can have given its fields and its mapping, so that opening part way takes it.
    pub fn is_readable(&self) -> bool {
        self.version <= LAST_READ && self.is_legal_but_for_its_version()
    }

    /// The bytes of the matrix that the fields ask for.
    fn matrix_length(&self) -> usize {
        match self.family {
            MATRIX => self.length() - TABLE,
            _ => 0,
        }
    }

    fn is_legal_but_for_its_version(&self) -> bool {
        let mut sized = self.fields().into_iter().zip(WIDTHS);
        sized.all(|(field, width)| field >> width == 0)
            && self.length() <= LONGEST
            && self.has_legal_mapping()
            && (self.family != 0 || self.has_table_of_family_0())
            && self.mapping[self.indices()..] == [0; PLACES][self.indices()..]
    }

    /// Whether the channel mapping is right, all fields being within their widths.
    fn has_legal_mapping(&self) -> bool {
        let is_counted = match self.family {
            0 => (1..=2).contains(&self.channels),
            1 => (1..=8).contains(&self.channels),
            AMBISONICS | MATRIX => is_ambisonic(self.channels),
            255 => self.channels >= 1,
            _ => false,
        };
        let decoded = self.streams + self.coupled;
        let is_legal = |&index: &u8| u64::from(index) < decoded || index == SILENCE;
        is_counted
            && self.streams >= 1
            && self.coupled <= self.streams
            && decoded <= 255
            && self.mapping[..self.indices()].iter().all(is_legal)
    }

    /// Whether the table is the one that family 0 does not spell out, for one or two channels.
    fn has_table_of_family_0(&self) -> bool {
        let indices = &self.mapping[..self.channels as usize];
        (self.streams, self.coupled) == (1, self.channels - 1) && [0, 1].starts_with(indices)
    }
}

/// Whether ambisonics have so many channels: the square of the order plus one, and two more or none.
fn is_ambisonic(channels: u64) -> bool {
    let squares = (0..=14).map(|order| (1 + order) * (1 + order));
    squares
        .flat_map(|square| [square, square + 2])
        .any(|count| count == channels)
}

/// The length in bytes of a header's fields, by its family, its channels and its two counts.
pub fn length_of(family: u8, channels: usize, counts: [u8; 2]) -> usize {
    let [streams, coupled] = counts.map(usize::from);
    match family.into() {
        0 => SHORTEST,
        MATRIX => TABLE + 2 * (streams + coupled) * channels,
        _ => TABLE + channels,
    }
}

/// The bytes of a header, of which only the low bits of the fields count.
pub fn encode(head: &Head) -> Vec<u8> {
    let mut bytes = b"OpusHead".to_vec();
    bytes.extend([head.version as u8, head.channels as u8]);
    bytes.extend((head.pre_skip as u16).to_le_bytes());
    bytes.extend((head.rate as u32).to_le_bytes());
    bytes.extend((head.gain as u16).to_le_bytes());
    bytes.push(head.family as u8);
    if head.family as u8 != 0 {
        bytes.extend([head.streams as u8, head.coupled as u8]);
    }
    match u64::from(head.family as u8) {
        0 => (),
        MATRIX => bytes.extend(&head.matrix),
        _ => bytes.extend(&head.mapping[..usize::from(head.channels as u8)]),
    }
    bytes
}

/// The header that the bytes are, or the refusal's number.
pub fn read(packet: &[u8]) -> Result<Head, u32> {
    let head = split(packet).ok_or(BAD_HEAD)?;
    if head.has_legal_mapping() {
        Ok(head)
    } else {
        Err(BAD_MAPPING)
    }
}

/// The bytes to be written to an output of `room` bytes, or the refusal's number.
pub fn write(head: &Head, room: usize) -> Result<Vec<u8>, u32> {
    if !head.is_writable() {
        Err(UNFIT_FIELDS)
    } else if room < head.length() {
        Err(NO_ROOM)
    } else {
        Ok(encode(head))
    }
}

/// The header that the bytes are, whatever its channel mapping, if its version is read and they are
/// its fields, with more bytes only where the version may have them.
fn split(packet: &[u8]) -> Option<Head> {
    let mut rest = packet;
    if take(&mut rest)? != *b"OpusHead" {
        return None;
    }
    let [version, channels] = take(&mut rest)?;
    let pre_skip = u16::from_le_bytes(take(&mut rest)?);
    let rate = u32::from_le_bytes(take(&mut rest)?);
    let gain = i16::from_le_bytes(take(&mut rest)?);
    let [family] = take(&mut rest)?;
    let mut mapping = [0; PLACES];
    let mut matrix = Vec::new();
    let (streams, coupled) = if family == 0 {
        for (place, index) in mapping.iter_mut().zip(0..channels) {
            *place = index;
        }
        (1, channels.saturating_sub(1))
    } else {
        let [streams, coupled] = take(&mut rest)?;
        let length = length_of(family, channels.into(), [streams, coupled]);
        if length > LONGEST {
            return None;
        }
        let table = rest.split_off(..length - TABLE)?;
        match family.into() {
            MATRIX => matrix.extend(table),
            _ => mapping[..table.len()].copy_from_slice(table),
        }
        (streams, coupled)
    };
    let head = Head {
        version: version.into(),
        channels: channels.into(),
        pre_skip: pre_skip.into(),
        rate: rate.into(),
        gain: gain.cast_unsigned().into(),
        family: family.into(),
        streams: streams.into(),
        coupled: coupled.into(),
        mapping,
        matrix,
    };
    let is_whole = rest.is_empty() || head.version > LAST_EXACT;
    (is_whole && head.version <= LAST_READ).then_some(head)
}
