//! ADTS: one frame of a file read, the channel stream in it cut out, and a channel stream wrapped as a frame.

use crate::bits::{Bits, Refusal, Tables, Written};
use crate::channel::{self, Channel};

const HEADER_BYTES: usize = 7;
const HEADER_BITS: usize = 8 * HEADER_BYTES;
const SYNC: u32 = 0xfff;
const LOW_COMPLEXITY: u32 = 1;
const FULLNESS: u32 = 2047;
/// Ids of elements, and the bits of an id and of a tag.
const CHANNEL_ELEMENT: u32 = 0;
const END_ELEMENT: u32 = 7;
const ID_BITS: usize = 3;
const TAG_BITS: usize = 4;

/// What an accepted header says: the sampling index, and the frame's length in bytes.
#[derive(Clone, Copy)]
pub struct Header {
    pub index: u32,
    pub length: usize,
}

/// An accepted frame: its header, the channel's numbers, the bytes of the channel stream.
pub struct Frame {
    pub header: Header,
    pub channel: Channel,
    pub stream: Vec<u8>,
}

/// A refusal, with the header where that was accepted.
pub struct Refused {
    pub refusal: Refusal,
    pub header: Option<Header>,
}

/// The header of a frame that has these bytes, and whatever the file has after it. It is there as a whole or not at all.
fn header(rest: &[u8]) -> Result<Header, Refusal> {
    let mut b = Bits::new(rest);
    if rest.len() < HEADER_BYTES {
        return Err(b.refusal(10));
    }
    if b.field(12)? != SYNC {
        return Err(Refusal::of_no_bit(50));
    }
    let _version = b.field(1)?;
    let layer = b.field(2)?;
    let protection_absent = b.field(1)?;
    let profile = b.field(2)?;
    let index = b.field(4)?;
    let _private = b.field(1)?;
    let channels = b.field(3)?;
    let _original_home_and_copyright = b.field(4)?;
    let length = b.field(13)? as usize;
    let _fullness = b.field(11)?;
    let more_blocks = b.field(2)?;
    if (layer, protection_absent, profile, channels, more_blocks) != (0, 1, LOW_COMPLEXITY, 1, 0) || ![3, 4, 6, 7].contains(&index) {
        return Err(Refusal::of_no_bit(51));
    }
    if length < HEADER_BYTES || length > rest.len() {
        return Err(Refusal::of_no_bit(52));
    }
    Ok(Header { index, length })
}

/// The raw block, from after the header to the frame's end: the channel's numbers, and the bytes of its stream. Places count from the
/// frame's first bit.
fn raw_block(frame: &[u8], index: u32, tables: &Tables) -> Result<(Channel, Vec<u8>), Refusal> {
    let mut b = Bits::new(frame);
    b.at = HEADER_BITS;
    b.judged(ID_BITS, 53, |id| id == CHANNEL_ELEMENT)?;
    let _tag = b.field(TAG_BITS)?;
    let mut stream = b.clone();
    let found = channel::read_from(&mut b, index, tables)?;
    b.judged(ID_BITS, 53, |id| id == END_ELEMENT)?;
    b.nearly_done()?;
    let mut cut = Written::default();
    cut.copy(&mut stream, found.bits);
    Ok((found, cut.bytes))
}

/// The frame that starts at a byte of a file.
pub fn read(file: &[u8], start: usize, tables: &Tables) -> Result<Frame, Refused> {
    let rest = file.get(start..).ok_or(Refused { refusal: Refusal::of_no_bit(1), header: None })?;
    let header = header(rest).map_err(|refusal| Refused { refusal, header: None })?;
    match raw_block(&rest[..header.length], header.index, tables) {
        Ok((channel, stream)) => Ok(Frame { header, channel, stream }),
        Err(refusal) => Err(Refused { refusal, header: Some(header) }),
    }
}

/// The frame that wraps the stream of a channel payload; refused as the payload is.
pub fn wrap(payload: &[u8], index: u32, tables: &Tables) -> Result<Vec<u8>, Refusal> {
    let used = channel::read(payload, index, tables)?.bits;
    let length = (HEADER_BITS + ID_BITS + TAG_BITS + used + ID_BITS + 7) / 8;
    let mut out = Written::default();
    out.put(SYNC, 12);
    // version and layer, no check words, then the profile
    out.put(0, 3);
    out.put(1, 1);
    out.put(LOW_COMPLEXITY, 2);
    out.put(index, 4);
    // private, one channel, then original, home and copyright
    out.put(0, 1);
    out.put(1, 3);
    out.put(0, 4);
    out.put(length as u32, 13);
    out.put(FULLNESS, 11);
    // one raw block
    out.put(0, 2);
    out.put(CHANNEL_ELEMENT, ID_BITS);
    out.put(0, TAG_BITS);
    out.copy(&mut Bits::new(payload), used);
    out.put(END_ELEMENT, ID_BITS);
    Ok(out.bytes)
}
