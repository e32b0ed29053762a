//! One AAC channel stream.

use crate::bits::{Bits, Refusal, Tables};

pub struct Channel {
    pub gain: u32,
    pub sequence: u32,
    pub shape: u32,
    pub max_sfb: usize,
    pub groups: Vec<usize>,
    pub books: Vec<u32>,
    pub factors: Vec<i32>,
    pub lines: Vec<i32>,
    pub bits: usize,
}

/// The first lines of the bands, and the end of the last: long and short, of indices 3 and 4, and of 6 and 7.
fn bands(index: u32, short: bool) -> Vec<usize> {
    let low = index <= 4;
    let mut edges: Vec<usize> = Vec::new();
    if short && low {
        edges.extend([0, 4, 8, 12, 16, 20, 28, 36, 44, 56, 68, 80, 96, 112, 128]);
    } else if short {
        edges.extend([0, 4, 8, 12, 16, 20, 24, 28, 36, 44, 52, 64, 76, 92, 108, 128]);
    } else if low {
        edges.extend((0..=40).step_by(4));
        edges.extend((48..=96).step_by(8));
        edges.extend([108, 120, 132, 144, 160, 176, 196, 216, 240, 264, 292, 320]);
        edges.extend((352..=928).step_by(32));
        edges.push(1024);
    } else {
        edges.extend((0..=44).step_by(4));
        edges.extend((52..=124).step_by(8));
        edges.extend([136, 148, 160, 172, 188, 204, 220, 240, 260, 284, 308, 336, 364, 396, 432, 468, 508, 552, 600, 652, 704]);
        edges.extend([768, 832, 896, 960, 1024]);
    }
    edges
}

/// Seven bits, the first for the second window: a 1 puts a window in the group of the one before.
fn grouped(bits: u32) -> Vec<usize> {
    let mut groups = vec![1];
    for k in (0..7).rev() {
        if bits >> k & 1 == 1 {
            *groups.last_mut().expect("a group") += 1;
        } else {
            groups.push(1);
        }
    }
    groups
}

/// The length of a section that has so much room: each increment is judged by the length so far.
fn section_length(b: &mut Bits, width: usize, room: usize) -> Result<usize, Refusal> {
    let mut length = 0;
    loop {
        let more = b.judged(width, 22, |more| (1..=room).contains(&(length + more as usize)))? as usize;
        length += more;
        if more != (1 << width) - 1 {
            return Ok(length);
        }
    }
}

fn section_books(b: &mut Bits, short: bool, max_sfb: usize) -> Result<Vec<u32>, Refusal> {
    let mut books = Vec::new();
    while books.len() < max_sfb {
        let book = b.judged(4, 23, |book| book <= 11)?;
        let length = section_length(b, if short { 3 } else { 5 }, max_sfb - books.len())?;
        books.extend(std::iter::repeat(book).take(length));
    }
    Ok(books)
}

/// The scale factor of each band: a difference to the last one where its book is not 0.
fn scale_factors(b: &mut Bits, books: &[u32], gain: u32, tables: &Tables) -> Result<Vec<i32>, Refusal> {
    let (mut factors, mut last) = (Vec::new(), gain as i32);
    for &book in books {
        if book == 0 {
            factors.push(0);
            continue;
        }
        let outside = b.refusal(24);
        last += b.word(tables.get("scale_factor"))? as i32 - 60;
        if !(0..=255).contains(&last) {
            return Err(outside);
        }
        factors.push(last);
    }
    Ok(factors)
}

/// A pulse: its line, its amplitude, and the refusal that stands at its first bit should it be too much for the line.
struct Pulse {
    line: usize,
    amplitude: i32,
    too_large: Refusal,
}

fn pulses(b: &mut Bits, short: bool, long_bands: &[usize]) -> Result<Vec<Pulse>, Refusal> {
    let mut found = Vec::new();
    if b.judged(1, 25, |flag| flag == 0 || !short)? == 0 {
        return Ok(found);
    }
    let count = b.field(2)? + 1;
    let start = b.judged(6, 25, |band| (band as usize) < long_bands.len() - 1)?;
    let mut line = long_bands[start as usize];
    for _ in 0..count {
        let too_large = b.refusal(26);
        line += b.judged(5, 25, |offset| line + offset as usize <= 1023)? as usize;
        found.push(Pulse { line, amplitude: b.field(4)? as i32, too_large });
    }
    Ok(found)
}

/// The pulses put on their lines, one after another.
fn add_pulses(pulses: &[Pulse], lines: &mut [i32]) -> Result<(), Refusal> {
    for pulse in pulses {
        let line = &mut lines[pulse.line];
        *line += if *line > 0 { pulse.amplitude } else { -pulse.amplitude };
        if line.abs() > 8191 {
            return Err(pulse.too_large);
        }
    }
    Ok(())
}

/// The values of a word, with its signs and escapes.
fn tuple(b: &mut Bits, book: u32, tables: &Tables) -> Result<Vec<i32>, Refusal> {
    let (count, base, signed) = match book {
        1 | 2 => (4, 3, true),
        3 | 4 => (4, 3, false),
        5 | 6 => (2, 9, true),
        7 | 8 => (2, 8, false),
        9 | 10 => (2, 13, false),
        _ => (2, 17, false),
    };
    let mut entry = b.word(tables.get(&format!("book_{book}")))?;
    let mut values = vec![0; count];
    for value in values.iter_mut().rev() {
        *value = (entry % base) as i32 - if signed { base as i32 / 2 } else { 0 };
        entry /= base;
    }
    if !signed {
        let mut negative = vec![false; count];
        for (value, sign) in values.iter().zip(negative.iter_mut()) {
            *sign = *value != 0 && b.field(1)? == 1;
        }
        for (value, sign) in values.iter_mut().zip(negative) {
            if book == 11 && *value == 16 {
                *value = b.escape()? as i32;
            }
            if sign {
                *value = -*value;
            }
        }
    }
    Ok(values)
}

/// All lines in window order, from the words of each band of each window.
fn spectrum(b: &mut Bits, groups: &[usize], edges: &[usize], books: &[u32], tables: &Tables) -> Result<Vec<i32>, Refusal> {
    let (mut lines, mut first_window, max_sfb) = (vec![0; 1024], 0, books.len() / groups.len());
    for (group, &windows) in groups.iter().enumerate() {
        for band in 0..max_sfb {
            let book = books[group * max_sfb + band];
            for window in first_window..first_window + windows {
                let mut line = 128 * window + edges[band];
                while book != 0 && line < 128 * window + edges[band + 1] {
                    for value in tuple(b, book, tables)? {
                        lines[line] = value;
                        line += 1;
                    }
                }
            }
        }
        first_window += windows;
    }
    Ok(lines)
}

/// A payload: a channel stream from its first bit, and at most 7 bits after it.
pub fn read(bytes: &[u8], index: u32, tables: &Tables) -> Result<Channel, Refusal> {
    let mut b = Bits::new(bytes);
    let found = read_from(&mut b, index, tables)?;
    b.nearly_done()?;
    Ok(found)
}

/// A channel stream from the place where the bits stand; what comes after it is not looked at.
pub fn read_from(b: &mut Bits, index: u32, tables: &Tables) -> Result<Channel, Refusal> {
    let start = b.at;
    let off = |flag| flag == 0;
    let gain = b.field(8)?;
    let _reserved = b.judged(1, 13, off)?;
    let sequence = b.field(2)?;
    let shape = b.field(1)?;
    let short = sequence == 2;
    let edges = bands(index, short);
    let max_sfb = b.judged(if short { 4 } else { 6 }, 21, |bands| (bands as usize) < edges.len())? as usize;
    let groups = if short { grouped(b.field(7)?) } else { vec![1] };
    if !short {
        let _prediction = b.judged(1, 20, off)?;
    }
    let mut books = Vec::new();
    for _ in &groups {
        books.extend(section_books(b, short, max_sfb)?);
    }
    let factors = scale_factors(b, &books, gain, tables)?;
    let pulses = pulses(b, short, &bands(index, false))?;
    let _tns = b.judged(1, 20, off)?;
    let _gain_control = b.judged(1, 20, off)?;
    let mut lines = spectrum(b, &groups, &edges, &books, tables)?;
    add_pulses(&pulses, &mut lines)?;
    Ok(Channel { gain, sequence, shape, max_sfb, groups, books, factors, lines, bits: b.at - start })
}
