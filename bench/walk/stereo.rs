//! One parametric stereo payload, and the state that is carried from payload to payload, both laid out as C has them.

use crate::bits::{Bits, Listener, Refusal};

const IID: usize = 0;
const ICC: usize = 1;
const IPD: usize = 2;
const OPD: usize = 3;

/// The mode that stands for none.
const NONE: u8 = 7;

/// A record: the mode that it was coded in, or NONE, and its indices.
#[repr(C)]
#[derive(Clone, Copy)]
struct Record {
    mode: u8,
    indices: [i8; 34],
}

const NO_RECORD: Record = Record { mode: NONE, indices: [0; 34] };

#[repr(C)]
#[derive(Clone, Copy)]
pub struct State {
    iid_on: u8,
    icc_on: u8,
    extension_on: u8,
    iid_mode: u8,
    icc_mode: u8,
    pub in_step: u8,
    records: [Record; 4],
}

const FRESH: State = State { iid_on: 0, icc_on: 0, extension_on: 0, iid_mode: NONE, icc_mode: NONE, in_step: 1, records: [NO_RECORD; 4] };

/// A kind in an envelope: whether it is coded across time, and its indices.
#[repr(C)]
#[derive(Clone, Copy)]
struct Row {
    time: u8,
    indices: [i8; 34],
}

/// All numbers of a stereo payload.
#[repr(C)]
pub struct Answer {
    bits: [u8; 4],
    header: u8,
    iid_on: u8,
    iid_mode: u8,
    icc_on: u8,
    icc_mode: u8,
    extension_on: u8,
    class: u8,
    envelopes: u8,
    borders: [u8; 4],
    extension: u8,
    size: u8,
    esc: u8,
    phase: u8,
    fill_count: u8,
    fill: u8,
    rows: [[Row; 4]; 4],
}

impl Answer {
    pub fn empty() -> Answer {
        Answer {
            bits: [0; 4],
            header: 0,
            iid_on: 0,
            iid_mode: 0,
            icc_on: 0,
            icc_mode: 0,
            extension_on: 0,
            class: 0,
            envelopes: 0,
            borders: [0; 4],
            extension: 0,
            size: 0,
            esc: 0,
            phase: 0,
            fill_count: 0,
            fill: 0,
            rows: [[Row { time: 0, indices: [0; 34] }; 4]; 4],
        }
    }

    /// Whether what was read is a restart: a header with IID and ICC, and a first envelope that is not coded across time.
    fn is_restart(&self) -> bool {
        self.iid_on == 1 && self.icc_on == 1 && self.envelopes > 0 && self.rows[0].iter().all(|row| row.time == 0)
    }
}

// As many bytes as C lends.
const _: [(); 146] = [(); std::mem::size_of::<State>()];
const _: [(); 582] = [(); std::mem::size_of::<Answer>()];

/// How a kind is coded in a mode: its bands, its first table (that of time is the next one), the entry of no difference, its range.
struct Coding {
    bands: usize,
    table: usize,
    middle: i32,
    least: i32,
    most: i32,
}

fn coding(kind: usize, mode: u8) -> Coding {
    let (size, fine) = ((mode % 3) as usize, mode >= 3);
    match kind {
        IID if fine => Coding { bands: [10, 20, 34][size], table: 14, middle: 30, least: -15, most: 15 },
        IID => Coding { bands: [10, 20, 34][size], table: 12, middle: 14, least: -7, most: 7 },
        ICC => Coding { bands: [10, 20, 34][size], table: 16, middle: 7, least: 0, most: 7 },
        IPD => Coding { bands: [5, 11, 17][size], table: 18, middle: 0, least: 0, most: 7 },
        _ => Coding { bands: [5, 11, 17][size], table: 20, middle: 0, least: 0, most: 7 },
    }
}

/// Whether bytes are a sound state.
pub fn is_sound(state: &State) -> bool {
    let flags = [state.iid_on, state.icc_on, state.extension_on, state.in_step];
    let enabled = [(state.iid_on, state.iid_mode), (state.icc_on, state.icc_mode)];
    flags.iter().all(|&flag| flag <= 1)
        && enabled.iter().all(|&(on, mode)| is_mode(mode) && (on == 0 || mode != NONE))
        && state.records.iter().enumerate().all(|(kind, record)| is_sound_record(kind, record))
}

fn is_mode(mode: u8) -> bool {
    mode <= 5 || mode == NONE
}

fn is_sound_record(kind: usize, record: &Record) -> bool {
    if !is_mode(record.mode) {
        return false;
    }
    let coding = coding(kind, record.mode);
    let bands = if record.mode == NONE { 0 } else { coding.bands };
    let (used, unused) = record.indices.split_at(bands);
    used.iter().all(|&index| (coding.least..=coding.most).contains(&(index as i32))) && unused.iter().all(|&index| index == 0)
}

/// A payload from a state: the state after it.
pub fn read<L: Listener>(b: &mut Bits<L>, state: &State, found: &mut Answer) -> Result<State, Refusal> {
    let mut next = if state.in_step == 1 { *state } else { FRESH };
    read_header(b, &mut next, found)?;
    read_borders(b, found)?;
    read_rows(b, IID, next.iid_on, next.iid_mode, &mut next.records[IID], found)?;
    read_rows(b, ICC, next.icc_on, next.icc_mode, &mut next.records[ICC], found)?;
    if next.extension_on == 1 {
        read_extension(b, &mut next, found)?;
    }
    if found.phase == 0 {
        next.records[IPD] = NO_RECORD;
        next.records[OPD] = NO_RECORD;
    }
    b.nearly_done()?;
    if state.in_step == 0 && !found.is_restart() {
        return Err(b.refusal(35));
    }
    found.bits = (b.at as u32).to_be_bytes();
    Ok(next)
}

fn read_header<L: Listener>(b: &mut Bits<L>, next: &mut State, found: &mut Answer) -> Result<(), Refusal> {
    found.header = b.field(1)? as u8;
    if found.header == 0 {
        return Ok(());
    }
    read_mode(b, &mut found.iid_on, &mut found.iid_mode, &mut next.iid_mode)?;
    read_mode(b, &mut found.icc_on, &mut found.icc_mode, &mut next.icc_mode)?;
    found.extension_on = b.field(1)? as u8;
    next.iid_on = found.iid_on;
    next.icc_on = found.icc_on;
    next.extension_on = found.extension_on;
    Ok(())
}

/// Whether a kind is on, and its mode where it is, which is then the last one sent.
fn read_mode<L: Listener>(b: &mut Bits<L>, on: &mut u8, mode: &mut u8, last_sent: &mut u8) -> Result<(), Refusal> {
    *on = b.field(1)? as u8;
    if *on == 1 {
        *mode = b.judged(3, 13, |mode| mode <= 5)? as u8;
        *last_sent = *mode;
    }
    Ok(())
}

/// The frame class, the envelope count, and the borders.
fn read_borders<L: Listener>(b: &mut Bits<L>, found: &mut Answer) -> Result<(), Refusal> {
    found.class = b.field(1)? as u8;
    let count = b.field(2)? as usize;
    if found.class == 0 {
        found.envelopes = [0, 1, 2, 4][count];
        return Ok(());
    }
    found.envelopes = count as u8 + 1;
    for border in found.borders[..count + 1].iter_mut() {
        *border = b.field(5)? as u8;
    }
    Ok(())
}

/// IID or ICC of every envelope; its record is none where it is off.
fn read_rows<L: Listener>(b: &mut Bits<L>, kind: usize, on: u8, mode: u8, record: &mut Record, found: &mut Answer) -> Result<(), Refusal> {
    if on == 0 {
        *record = NO_RECORD;
        return Ok(());
    }
    for envelope in 0..found.envelopes as usize {
        read_row(b, kind, mode, record, &mut found.rows[envelope][kind])?;
    }
    Ok(())
}

/// A kind of one envelope, coded in a mode against the record so far, which it becomes.
fn read_row<L: Listener>(b: &mut Bits<L>, kind: usize, mode: u8, record: &mut Record, row: &mut Row) -> Result<(), Refusal> {
    let other_mode = record.mode != NONE && record.mode != mode;
    row.time = b.judged(1, 31, |flag| flag == 0 || !other_mode)? as u8;
    let (coding, time) = (coding(kind, mode), row.time == 1);
    let table = coding.table + row.time as usize;
    let mut last = 0;
    for (index, before) in row.indices[..coding.bands].iter_mut().zip(record.indices) {
        let outside = b.refusal(32);
        let from = if time { before as i32 } else { last };
        let sum = from + b.word(table)? as i32 - coding.middle;
        last = if kind >= IPD { sum % 8 } else { sum };
        if !(coding.least..=coding.most).contains(&last) {
            return Err(outside);
        }
        *index = last as i8;
    }
    *record = Record { mode, indices: row.indices };
    Ok(())
}

/// The extension, which ends where its size says.
fn read_extension<L: Listener>(b: &mut Bits<L>, next: &mut State, found: &mut Answer) -> Result<(), Refusal> {
    found.extension = 1;
    found.size = b.field(4)? as u8;
    if found.size == 15 {
        found.esc = b.field(8)? as u8;
    }
    let bits = 8 * (found.size as usize + found.esc as usize);
    if b.left() < bits {
        return Err(b.refusal(10));
    }
    let payload_end = b.end;
    b.end = b.at + bits;
    if bits > 0 {
        read_version_0(b, next, found).map_err(inside)?;
        read_fill(b, found)?;
    }
    b.end = payload_end;
    Ok(())
}

/// Inside the extension a field that passes its end is 33, where it would be 10.
fn inside(refusal: Refusal) -> Refusal {
    Refusal { number: if refusal.number == 10 { 33 } else { refusal.number }, ..refusal }
}

/// The phases of every envelope, where they are enabled.
fn read_version_0<L: Listener>(b: &mut Bits<L>, next: &mut State, found: &mut Answer) -> Result<(), Refusal> {
    let mode = next.iid_mode;
    b.judged(2, 13, |id| id == 0)?;
    found.phase = b.judged(1, 34, |flag| flag == 0 || mode != NONE)? as u8;
    for envelope in 0..if found.phase == 1 { found.envelopes as usize } else { 0 } {
        for kind in [IPD, OPD] {
            read_row(b, kind, mode, &mut next.records[kind], &mut found.rows[envelope][kind])?;
        }
    }
    let _reserved = b.judged(1, 13, |bit| bit == 0)?;
    Ok(())
}

/// Up to 7 bits to the extension's end; more are a second v0 or an unknown id.
fn read_fill<L: Listener>(b: &mut Bits<L>, found: &mut Answer) -> Result<(), Refusal> {
    if b.left() > 7 {
        let (second, unknown) = (b.refusal(33), b.refusal(13));
        return Err(if b.field(2)? == 0 { second } else { unknown });
    }
    found.fill_count = b.left() as u8;
    if b.left() > 0 {
        found.fill = b.field(b.left())? as u8;
    }
    Ok(())
}
