//! What is printed of an ADTS file, and the tag image that is made of one.

use crate::adts::{self, Frame, Refused};
use crate::bits::{Number, Tables};
use crate::{dump_channel, header, set_lines};

const MOST_PAYLOADS: usize = 1024;
const LONGEST_IMAGE: usize = 65535;
/// The stereo payload that follows each channel stream of an imported file.
const KEEP_STEREO: u8 = 0;

fn hex(bytes: &[u8]) -> String {
    bytes.iter().map(|byte| format!("{byte:02x}")).collect()
}

/// The rows under a frame's line: the channel's numbers, the stream that was cut out, the frame that wraps it.
fn cut_rows(frame: &Frame, tables: &Tables, out: &mut String) {
    dump_channel(&frame.channel, out);
    *out += &format!("  stream {}\n", hex(&frame.stream));
    match adts::wrap(&frame.stream, frame.header.index, tables) {
        Ok(wrapped) => *out += &format!("  frame {}\n", hex(&wrapped)),
        Err(refusal) => *out += &format!("  frame refused {refusal}\n"),
    }
}

/// The line of an accepted frame.
fn line(frame: &Frame) -> String {
    let (header, channel, set) = (&frame.header, &frame.channel, set_lines(&frame.channel));
    format!("length {} index {} channel gain {} lines {set} bits {}", header.length, header.index, channel.gain, channel.bits)
}

/// The length of a refused frame, where a next frame is known.
fn length_of(refused: &Refused) -> Option<usize> {
    match refused.refusal.number {
        10 | 50 | 51 | 52 => None,
        _ => refused.header.map(|header| header.length),
    }
}

/// A line a frame, and with `cut` the rows under it, as far as a next frame is known.
pub fn listing(file: &[u8], cut: bool, tables: &Tables) -> String {
    let (mut out, mut start, mut number) = (String::new(), 0, 0);
    while start < file.len() {
        let length = match adts::read(file, start, tables) {
            Ok(frame) => {
                out += &format!("{number} frame at {start} {}\n", line(&frame));
                if cut {
                    cut_rows(&frame, tables, &mut out);
                }
                Some(frame.header.length)
            }
            Err(refused) => {
                out += &format!("{number} frame at {start} refused {}\n", refused.refusal);
                length_of(&refused)
            }
        };
        match length {
            Some(length) => start += length,
            None => break,
        }
        number += 1;
    }
    out
}

/// A line for each channel payload of a tag image: the frame that wraps it.
pub fn wrapped(bytes: &[u8], tables: &Tables) -> Result<String, Number> {
    let image = header(bytes)?;
    let mut out = String::new();
    for (number, ends) in image.offsets.windows(2).enumerate().step_by(2) {
        match adts::wrap(&bytes[ends[0]..ends[1]], image.index, tables) {
            Ok(frame) => out += &format!("{number} {}\n", hex(&frame)),
            Err(refusal) => out += &format!("{number} refused {refusal}\n"),
        }
    }
    Ok(out)
}

/// The streams of a file whose frames are all accepted, of one sampling index, and not too many for an image; or the first fault.
fn streams(file: &[u8], tables: &Tables) -> Result<(u32, Vec<Vec<u8>>), String> {
    let (mut index, mut found, mut start, mut size) = (None, Vec::new(), 0, 6);
    while start < file.len() {
        let number = found.len();
        let fault = |refused: Refused| format!("frame {number} at {start} refused {}", refused.refusal.number);
        let frame = adts::read(file, start, tables).map_err(fault)?;
        if *index.get_or_insert(frame.header.index) != frame.header.index {
            return Err(format!("frame {number} at {start} has another sampling index than the first frame"));
        }
        size += 4 + frame.stream.len() + 1;
        start += frame.header.length;
        found.push(frame.stream);
        if size > LONGEST_IMAGE || 2 * found.len() > MOST_PAYLOADS {
            return Err(format!("frame {number} is too much for one image"));
        }
    }
    Ok((index.ok_or("the file has no frames")?, found))
}

/// The tag image of a file's streams, each followed by a stereo payload; or why there is none.
pub fn import(file: &[u8], tables: &Tables) -> Result<Vec<u8>, String> {
    let (index, found) = streams(file, tables)?;
    let payloads: Vec<Vec<u8>> = found.into_iter().flat_map(|stream| [stream, vec![KEEP_STEREO]]).collect();
    let mut pairs = vec![payloads.len(), index as usize, 6 + 2 * payloads.len()];
    for payload in &payloads {
        pairs.push(pairs[pairs.len() - 1] + payload.len());
    }
    let mut image: Vec<u8> = pairs.iter().flat_map(|pair| (*pair as u16).to_be_bytes()).collect();
    image.extend(payloads.concat());
    Ok(image)
}
