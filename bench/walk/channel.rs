//! One AAC channel stream.

use crate::bits::{Bits, Listener, Refusal};
use crate::trees::SCALE_FACTOR;

/// The first lines of the bands, and the end of the last: of indices 3 and 4, and of 6 and 7.
static LONG_3_4: [u16; 50] = [
    0, 4, 8, 12, 16, 20, 24, 28, 32, 36, 40, 48, 56, 64, 72, 80, 88, 96, 108, 120, 132, 144, 160, 176, 196, 216, 240, 264, 292, 320, 352,
    384, 416, 448, 480, 512, 544, 576, 608, 640, 672, 704, 736, 768, 800, 832, 864, 896, 928, 1024,
];
static LONG_6_7: [u16; 48] = [
    0, 4, 8, 12, 16, 20, 24, 28, 32, 36, 40, 44, 52, 60, 68, 76, 84, 92, 100, 108, 116, 124, 136, 148, 160, 172, 188, 204, 220, 240, 260,
    284, 308, 336, 364, 396, 432, 468, 508, 552, 600, 652, 704, 768, 832, 896, 960, 1024,
];
static SHORT_3_4: [u16; 15] = [0, 4, 8, 12, 16, 20, 28, 36, 44, 56, 68, 80, 96, 112, 128];
static SHORT_6_7: [u16; 16] = [0, 4, 8, 12, 16, 20, 24, 28, 36, 44, 52, 64, 76, 92, 108, 128];

const EIGHT_SHORT: u8 = 2;

/// All numbers of a channel stream, as C has them.
pub struct Channel {
    pub bits: u32,
    pub gain: u8,
    pub sequence: u8,
    pub shape: u8,
    pub max_sfb: u8,
    pub group_count: u8,
    pub groups: [u8; 8],
    pub lines: [i16; 1024],
    pub factors: [u8; 120],
    pub books: [u8; 120],
}

impl Channel {
    pub fn silent() -> Channel {
        Channel {
            bits: 0,
            gain: 0,
            sequence: 0,
            shape: 0,
            max_sfb: 0,
            group_count: 1,
            groups: [1, 0, 0, 0, 0, 0, 0, 0],
            lines: [0; 1024],
            factors: [0; 120],
            books: [0; 120],
        }
    }

    fn is_short(&self) -> bool {
        self.sequence == EIGHT_SHORT
    }

    /// How many bands there are in all groups.
    fn bands(&self) -> usize {
        self.group_count as usize * self.max_sfb as usize
    }
}

/// A pulse: its line, its amplitude, and its first bit.
#[derive(Clone, Copy)]
struct Pulse {
    line: usize,
    amplitude: i16,
    place: usize,
}

/// Up to four pulses.
struct Pulses {
    of: [Pulse; 4],
    count: usize,
}

/// A payload: a channel stream from its first bit, and at most 7 bits after it.
pub fn read<L: Listener>(b: &mut Bits<L>, index: u32, found: &mut Channel) -> Result<(), Refusal> {
    let low = index <= 4;
    let long: &[u16] = if low { &LONG_3_4 } else { &LONG_6_7 };
    let short: &[u16] = if low { &SHORT_3_4 } else { &SHORT_6_7 };
    read_windows(b, long, short, found)?;
    for group in 0..found.group_count as usize {
        read_sections(b, group, found)?;
    }
    read_factors(b, found)?;
    let pulses = read_pulses(b, found.is_short(), long)?;
    let _tns = b.judged(1, 20, |flag| flag == 0)?;
    let _gain_control = b.judged(1, 20, |flag| flag == 0)?;
    read_spectrum(b, if found.is_short() { short } else { long }, found)?;
    add_pulses(&pulses, &mut found.lines)?;
    b.nearly_done()?;
    found.bits = b.at as u32;
    Ok(())
}

/// The gain, and the window information with its groups.
fn read_windows<L: Listener>(b: &mut Bits<L>, long: &[u16], short: &[u16], found: &mut Channel) -> Result<(), Refusal> {
    found.gain = b.field(8)? as u8;
    let _reserved = b.judged(1, 13, |bit| bit == 0)?;
    found.sequence = b.field(2)? as u8;
    found.shape = b.field(1)? as u8;
    if found.is_short() {
        found.max_sfb = b.judged(4, 21, |bands| (bands as usize) < short.len())? as u8;
        let joined = b.field(7)?;
        put_groups(joined, found);
    } else {
        found.max_sfb = b.judged(6, 21, |bands| (bands as usize) < long.len())? as u8;
        let _prediction = b.judged(1, 20, |flag| flag == 0)?;
    }
    Ok(())
}

/// Seven bits, the first for the second window: a 1 puts a window in the group of the one before.
fn put_groups(joined: u32, found: &mut Channel) {
    let mut group = 0;
    for k in (0..7).rev() {
        group += (joined >> k & 1 == 0) as usize;
        found.groups[group] += 1;
    }
    found.group_count = group as u8 + 1;
}

/// The books of a group's bands, from its sections.
fn read_sections<L: Listener>(b: &mut Bits<L>, group: usize, found: &mut Channel) -> Result<(), Refusal> {
    let width = if found.is_short() { 3 } else { 5 };
    let max_sfb = found.max_sfb as usize;
    let books = &mut found.books[group * max_sfb..(group + 1) * max_sfb];
    let mut band = 0;
    while band < max_sfb {
        let book = b.judged(4, 23, |book| book <= 11)? as u8;
        let length = read_length(b, width, max_sfb - band)?;
        books[band..band + length].fill(book);
        band += length;
    }
    Ok(())
}

/// The length of a section that has so much room: each increment is judged by the length so far.
fn read_length<L: Listener>(b: &mut Bits<L>, width: usize, room: usize) -> Result<usize, Refusal> {
    let mut length = 0;
    loop {
        let more = b.judged(width, 22, |more| (1..=room).contains(&(length + more as usize)))? as usize;
        length += more;
        if more != (1 << width) - 1 {
            return Ok(length);
        }
    }
}

/// The scale factor of each band whose book is not 0: a difference to the last one.
fn read_factors<L: Listener>(b: &mut Bits<L>, found: &mut Channel) -> Result<(), Refusal> {
    let mut last = found.gain as i32;
    for band in 0..found.bands() {
        if found.books[band] == 0 {
            continue;
        }
        let outside = b.refusal(24);
        last += b.word(SCALE_FACTOR)? as i32 - 60;
        if !(0..=255).contains(&last) {
            return Err(outside);
        }
        found.factors[band] = last as u8;
    }
    Ok(())
}

fn read_pulses<L: Listener>(b: &mut Bits<L>, short: bool, long: &[u16]) -> Result<Pulses, Refusal> {
    let mut pulses = Pulses { of: [Pulse { line: 0, amplitude: 0, place: 0 }; 4], count: 0 };
    if b.judged(1, 25, |flag| flag == 0 || !short)? == 0 {
        return Ok(pulses);
    }
    pulses.count = b.field(2)? as usize + 1;
    let start = b.judged(6, 25, |band| (band as usize) < long.len() - 1)?;
    let mut line = long[start as usize] as usize;
    for pulse in pulses.of[..pulses.count].iter_mut() {
        let place = b.at;
        line += b.judged(5, 25, |offset| line + offset as usize <= 1023)? as usize;
        *pulse = Pulse { line, amplitude: b.field(4)? as i16, place };
    }
    Ok(pulses)
}

/// The pulses put on their lines, one after another: a line above 0 gains the amplitude, any other loses it.
fn add_pulses(pulses: &Pulses, lines: &mut [i16; 1024]) -> Result<(), Refusal> {
    for pulse in &pulses.of[..pulses.count] {
        let line = &mut lines[pulse.line];
        *line += if *line > 0 { pulse.amplitude } else { -pulse.amplitude };
        if line.abs() > 8191 {
            return Err(Refusal { number: 26, place: pulse.place as u32 });
        }
    }
    Ok(())
}

/// All lines in window order, from the words of each band of each window of each group.
fn read_spectrum<L: Listener>(b: &mut Bits<L>, edges: &[u16], found: &mut Channel) -> Result<(), Refusal> {
    let (mut first_window, max_sfb) = (0, found.max_sfb as usize);
    for group in 0..found.group_count as usize {
        let windows = first_window..first_window + found.groups[group] as usize;
        for band in 0..max_sfb {
            let book = found.books[group * max_sfb + band] as usize;
            let (first, end) = (edges[band] as usize, edges[band + 1] as usize);
            for window in windows.clone() {
                read_band(b, book, &mut found.lines[128 * window + first..128 * window + end])?;
            }
        }
        first_window = windows.end;
    }
    Ok(())
}

/// The lines of a band in one window, by its book.
fn read_band<L: Listener>(b: &mut Bits<L>, book: usize, lines: &mut [i16]) -> Result<(), Refusal> {
    match book {
        0 => Ok(()),
        1 | 2 => read_signed::<4, L>(b, book, lines),
        3 | 4 => read_unsigned::<4, L>(b, book, lines),
        5 | 6 => read_signed::<2, L>(b, book, lines),
        7..=10 => read_unsigned::<2, L>(b, book, lines),
        _ => read_escaped(b, book, lines),
    }
}

/// Words whose values have their signs.
fn read_signed<const COUNT: usize, L: Listener>(b: &mut Bits<L>, book: usize, lines: &mut [i16]) -> Result<(), Refusal> {
    let tuples = b.trees.tuples(book);
    for places in lines.chunks_exact_mut(COUNT) {
        let values = tuples[b.word(book)?];
        for (line, value) in places.iter_mut().zip(values) {
            *line = value as i16;
        }
    }
    Ok(())
}

/// Words after which come the sign bits of the values that are not 0.
fn read_unsigned<const COUNT: usize, L: Listener>(b: &mut Bits<L>, book: usize, lines: &mut [i16]) -> Result<(), Refusal> {
    let tuples = b.trees.tuples(book);
    for places in lines.chunks_exact_mut(COUNT) {
        let values = tuples[b.word(book)?];
        for (line, value) in places.iter_mut().zip(values) {
            *line = read_sign(b, value)?;
        }
    }
    Ok(())
}

/// Words of book 11: after the sign bits come the escapes of the values that are 16.
fn read_escaped<L: Listener>(b: &mut Bits<L>, book: usize, lines: &mut [i16]) -> Result<(), Refusal> {
    let tuples = b.trees.tuples(book);
    for places in lines.chunks_exact_mut(2) {
        let values = tuples[b.word(book)?];
        for (line, value) in places.iter_mut().zip(values) {
            *line = read_sign(b, value)?;
        }
        for line in places.iter_mut() {
            if line.abs() == 16 {
                let magnitude = b.escape()? as i16;
                *line = if *line < 0 { -magnitude } else { magnitude };
            }
        }
    }
    Ok(())
}

/// A value with its sign bit, which is there where it is not 0.
#[inline(always)]
fn read_sign<L: Listener>(b: &mut Bits<L>, value: i8) -> Result<i16, Refusal> {
    let negative = value != 0 && b.field(1)? == 1;
    Ok(if negative { -(value as i16) } else { value as i16 })
}
