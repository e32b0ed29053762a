//! One parametric stereo payload, and the state that is carried from payload to payload.

use crate::bits::{Bits, Refusal, Tables};

pub const KINDS: [&str; 4] = ["iid", "icc", "ipd", "opd"];
const IID: usize = 0;
const ICC: usize = 1;
const IPD: usize = 2;
const OPD: usize = 3;

pub type Indices = [i32; 34];

#[derive(Clone)]
pub struct State {
    pub iid_on: bool,
    pub icc_on: bool,
    pub ext_on: bool,
    pub iid_mode: Option<u32>,
    pub icc_mode: Option<u32>,
    /// Of each kind none, or the mode it was coded in and its indices.
    pub records: [Option<(u32, Indices)>; 4],
    pub in_step: bool,
}

impl State {
    pub fn fresh() -> State {
        State {
            iid_on: false,
            icc_on: false,
            ext_on: false,
            iid_mode: None,
            icc_mode: None,
            records: [None; 4],
            in_step: true,
        }
    }
}

pub struct Header {
    pub iid: Option<u32>,
    pub icc: Option<u32>,
    pub ext: bool,
}

/// One kind in one envelope: its time flag, where it was sent, and its indices.
#[derive(Clone, Copy)]
pub struct Coded {
    pub time: Option<bool>,
    pub indices: Indices,
}

const NOT_SENT: Coded = Coded { time: None, indices: [0; 34] };

pub struct Extension {
    pub size: usize,
    /// enable_ipdopd, where there is a v0.
    pub phase: Option<bool>,
    pub fill: Vec<bool>,
}

pub struct Contents {
    pub header: Option<Header>,
    pub class: u32,
    pub borders: Vec<u32>,
    /// Four kinds an envelope.
    pub envelopes: Vec<[Coded; 4]>,
    pub extension: Option<Extension>,
}

fn mode(b: &mut Bits) -> Result<Option<u32>, Refusal> {
    if b.field(1)? == 0 {
        return Ok(None);
    }
    b.judged(3, 13, |mode| mode <= 5).map(Some)
}

fn header(b: &mut Bits) -> Result<Option<Header>, Refusal> {
    if b.field(1)? == 0 {
        return Ok(None);
    }
    Ok(Some(Header { iid: mode(b)?, icc: mode(b)?, ext: b.field(1)? == 1 }))
}

fn bands(kind: usize, mode: u32) -> usize {
    let place = (mode % 3) as usize;
    if kind == IID || kind == ICC {
        [10, 20, 34][place]
    } else {
        [5, 11, 17][place]
    }
}

fn table_name(kind: usize, fine: bool, time: bool) -> String {
    let what = match kind {
        IID if fine => "level_fine",
        IID => "level_default",
        ICC => "coherence",
        IPD => "phase",
        _ => "overall_phase",
    };
    format!("{}_{}", what, if time { "time" } else { "frequency" })
}

/// A kind of one envelope, coded in a mode against the record so far.
fn coded(b: &mut Bits, kind: usize, mode: u32, record: &mut Option<(u32, Indices)>, tables: &Tables) -> Result<Coded, Refusal> {
    let other_mode = record.map_or(false, |held| held.0 != mode);
    let time = b.judged(1, 31, |flag| flag == 0 || !other_mode)? == 1;
    let before = record.map_or([0; 34], |held| held.1);
    let fine = mode >= 3;
    let table = tables.get(&table_name(kind, fine, time));
    let mut indices = [0; 34];
    let mut last = 0;
    for band in 0..bands(kind, mode) {
        let outside = b.refusal(32);
        let entry = b.word(table)? as i32;
        let from = if time { before[band] } else { last };
        let index = match kind {
            IID => from + entry - if fine { 30 } else { 14 },
            ICC => from + entry - 7,
            _ => (from + entry) % 8,
        };
        let range = match kind {
            IID if fine => -15..=15,
            IID => -7..=7,
            _ => 0..=7,
        };
        if !range.contains(&index) {
            return Err(outside);
        }
        indices[band] = index;
        last = index;
    }
    *record = Some((mode, indices));
    Ok(Coded { time: Some(time), indices })
}

/// Inside the extension a field that passes its end is 33, where it would be 10.
fn inside(refusal: Refusal) -> Refusal {
    Refusal { number: if refusal.number == 10 { 33 } else { refusal.number }, ..refusal }
}

fn version_0(b: &mut Bits, state: &mut State, envelopes: &mut [[Coded; 4]], tables: &Tables) -> Result<bool, Refusal> {
    b.judged(2, 13, |id| id == 0)?;
    let phase = b.judged(1, 34, |flag| flag == 0 || state.iid_mode.is_some())? == 1;
    if phase {
        let mode = state.iid_mode.expect("a mode was sent before phases");
        for envelope in envelopes.iter_mut() {
            for kind in [IPD, OPD] {
                envelope[kind] = coded(b, kind, mode, &mut state.records[kind], tables)?;
            }
        }
    }
    let _reserved = b.judged(1, 13, |bit| bit == 0)?;
    Ok(phase)
}

fn extension(b: &mut Bits, state: &mut State, envelopes: &mut [[Coded; 4]], tables: &Tables) -> Result<Extension, Refusal> {
    let mut size = b.field(4)? as usize;
    if size == 15 {
        size += b.field(8)? as usize;
    }
    if b.left() < 8 * size {
        return Err(b.refusal(10));
    }
    let mut part = b.clone();
    part.end = part.at + 8 * size;
    b.at = part.end;
    let mut found = Extension { size, phase: None, fill: Vec::new() };
    if size == 0 {
        return Ok(found);
    }
    found.phase = Some(version_0(&mut part, state, envelopes, tables).map_err(inside)?);
    if part.left() > 7 {
        let (second, unknown) = (part.refusal(33), part.refusal(13));
        return Err(if part.field(2)? == 0 { second } else { unknown });
    }
    while part.left() > 0 {
        found.fill.push(part.field(1)? == 1);
    }
    Ok(found)
}

/// Contents read from a state, which becomes the one after them; without 12 and 35.
fn payload(b: &mut Bits, state: &mut State, tables: &Tables) -> Result<Contents, Refusal> {
    let header = header(b)?;
    if let Some(sent) = &header {
        state.iid_on = sent.iid.is_some();
        state.icc_on = sent.icc.is_some();
        state.ext_on = sent.ext;
        state.iid_mode = sent.iid.or(state.iid_mode);
        state.icc_mode = sent.icc.or(state.icc_mode);
    }
    let class = b.field(1)?;
    let which = b.field(2)? as usize;
    let count = if class == 1 { [1, 2, 3, 4][which] } else { [0, 1, 2, 4][which] };
    let mut borders = Vec::new();
    for _ in 0..if class == 1 { count } else { 0 } {
        borders.push(b.field(5)?);
    }
    let mut envelopes = vec![[NOT_SENT; 4]; count];
    for (kind, on, mode) in [(IID, state.iid_on, state.iid_mode), (ICC, state.icc_on, state.icc_mode)] {
        if !on {
            state.records[kind] = None;
            continue;
        }
        let mode = mode.expect("a mode was sent for an enabled kind");
        for envelope in envelopes.iter_mut() {
            envelope[kind] = coded(b, kind, mode, &mut state.records[kind], tables)?;
        }
    }
    let mut found = None;
    if state.ext_on {
        found = Some(extension(b, state, &mut envelopes, tables)?);
    }
    if found.as_ref().map_or(true, |extension| extension.phase != Some(true)) {
        state.records[IPD] = None;
        state.records[OPD] = None;
    }
    Ok(Contents { header, class, borders, envelopes, extension: found })
}

fn restart(contents: &Contents) -> bool {
    let both_on = contents.header.as_ref().map_or(false, |header| header.iid.is_some() && header.icc.is_some());
    both_on && contents.envelopes.first().map_or(false, |first| first.iter().all(|coded| coded.time != Some(true)))
}

/// A whole payload read from a state: the state after it, its contents, and the bits that they use.
fn whole(bytes: &[u8], state: &State, tables: &Tables) -> Result<(State, Contents, usize), Refusal> {
    let mut b = Bits::new(bytes);
    let mut next = if state.in_step { state.clone() } else { State::fresh() };
    let contents = payload(&mut b, &mut next, tables)?;
    b.nearly_done()?;
    if state.in_step || restart(&contents) {
        Ok((next, contents, b.at))
    } else {
        Err(b.refusal(35))
    }
}

/// A payload; a refusal sets the state's mark and nothing else.
pub fn read(bytes: &[u8], state: &mut State, tables: &Tables) -> Result<(Contents, usize), Refusal> {
    match whole(bytes, state, tables) {
        Ok((next, contents, used)) => {
            *state = next;
            Ok((contents, used))
        }
        Err(refusal) => {
            state.in_step = false;
            Err(refusal)
        }
    }
}
