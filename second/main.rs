//! The second program: reads a tag image from standard input and prints its listing, its dump or the frames that wrap its channel streams;
//! or reads an ADTS file and prints its listing, its numbers and streams, or a tag image. Written from the rules alone, to be compared with
//! the proved ones.

mod adts;
mod bits;
mod channel;
mod frames;
mod stereo;

use bits::{Number, Refusal, Tables};
use channel::Channel;
use std::fmt::Display;
use std::io::{Read, Write};
use stereo::{Coded, Contents, State, KINDS};

struct Image {
    index: u32,
    offsets: Vec<usize>,
}

/// The header: 5, then 3.
fn header(bytes: &[u8]) -> Result<Image, Number> {
    let pair = |i: usize| (bytes[i] as usize) << 8 | bytes[i + 1] as usize;
    if bytes.len() > 65535 || bytes.len() < 6 {
        return Err(5);
    }
    let count = pair(0);
    if count % 2 == 1 || count > 1024 || bytes.len() < 6 + 2 * count {
        return Err(5);
    }
    let offsets: Vec<usize> = (0..=count).map(|k| pair(4 + 2 * k)).collect();
    if offsets[0] != 6 + 2 * count || offsets[count] != bytes.len() || offsets.windows(2).any(|two| two[0] > two[1]) {
        return Err(5);
    }
    match pair(2) as u32 {
        index @ (3 | 4 | 6 | 7) => Ok(Image { index, offsets }),
        _ => Err(3),
    }
}

fn joined<T: Display>(items: impl IntoIterator<Item = T>) -> String {
    items.into_iter().map(|item| format!(" {item}")).collect()
}

/// How many lines of a channel stream are not 0.
fn set_lines(found: &Channel) -> usize {
    found.lines.iter().filter(|line| **line != 0).count()
}

fn dump_channel(found: &Channel, out: &mut String) {
    let set = found.lines.iter().enumerate().filter(|(_, line)| **line != 0);
    *out += &format!("  window {} shape {} max_sfb {} groups{}\n", found.sequence, found.shape, found.max_sfb, joined(&found.groups));
    *out += &format!("  books{}\n", joined(&found.books));
    *out += &format!("  factors{}\n", joined(&found.factors));
    *out += &format!("  values{}\n", joined(set.map(|(place, line)| format!("{place}:{line}"))));
}

fn or_dash<T: Display>(value: Option<T>) -> String {
    value.map_or("-".to_string(), |value| value.to_string())
}

fn direction(coded: &Coded) -> &str {
    match coded.time {
        None => "-",
        Some(true) => "t",
        Some(false) => "f",
    }
}

fn dump_contents(contents: &Contents, out: &mut String) {
    match &contents.header {
        None => *out += "  header -\n",
        Some(sent) => *out += &format!("  header iid {} icc {} ext {}\n", or_dash(sent.iid), or_dash(sent.icc), sent.ext as u8),
    }
    *out += &format!("  class {} borders{}\n", contents.class, joined(&contents.borders));
    for (number, envelope) in contents.envelopes.iter().enumerate() {
        *out += &format!("  envelope {number}");
        for (name, coded) in KINDS.iter().zip(envelope) {
            *out += &format!(" {name} {}", direction(coded));
        }
        *out += "\n";
        for (name, coded) in KINDS.iter().zip(envelope) {
            *out += &format!("  {name}{}\n", joined(coded.indices));
        }
    }
    match &contents.extension {
        None => *out += "  extension -\n",
        Some(found) => {
            *out += &format!("  extension size {}", found.size);
            if let Some(phase) = found.phase {
                let fill: String = found.fill.iter().map(|bit| if *bit { '1' } else { '0' }).collect();
                *out += &format!(" phase {} fill {}", phase as u8, if fill.is_empty() { "-" } else { &fill });
            }
            *out += "\n";
        }
    }
}

fn dump_state(state: &State, out: &mut String) {
    let flags = [state.iid_on, state.icc_on, state.ext_on].map(|flag| flag as u8);
    *out += &format!("  state iid {} icc {}", or_dash(state.iid_mode), or_dash(state.icc_mode));
    *out += &format!(" enabled{} step {}\n", joined(flags), state.in_step as u8);
    for (name, record) in KINDS.iter().zip(&state.records) {
        match record {
            None => *out += &format!("  record {name} -\n"),
            Some((mode, indices)) => *out += &format!("  record {name} {mode}{}\n", joined(indices)),
        }
    }
}

/// A refused payload's line: a dump tells the place too.
fn refused_line(number: usize, what: &str, refusal: Refusal, dump: bool) -> String {
    if dump {
        format!("{number} {what} refused {refusal}\n")
    } else {
        format!("{number} {what} refused {}\n", refusal.number)
    }
}

fn printed_image(bytes: &[u8], dump: bool, tables: &Tables) -> Result<String, Number> {
    let image = header(bytes)?;
    let mut state = State::fresh();
    let mut text = format!("payloads {}\n", image.offsets.len() - 1);
    let out = &mut text;
    for (number, ends) in image.offsets.windows(2).enumerate() {
        let part = &bytes[ends[0]..ends[1]];
        if number % 2 == 0 {
            match channel::read(part, image.index, tables) {
                Err(refusal) => *out += &refused_line(number, "channel", refusal, dump),
                Ok(found) => {
                    *out += &format!("{number} channel gain {} lines {} bits {}\n", found.gain, set_lines(&found), found.bits);
                    if dump {
                        dump_channel(&found, out);
                    }
                }
            }
            continue;
        }
        match stereo::read(part, &mut state, tables) {
            Err(refusal) => *out += &refused_line(number, "stereo", refusal, dump),
            Ok((contents, used)) => {
                *out += &format!("{number} stereo envelopes {} bits {used}\n", contents.envelopes.len());
                if dump {
                    dump_contents(&contents, out);
                }
            }
        }
        if dump {
            dump_state(&state, out);
        }
    }
    Ok(text)
}

/// What is printed of an image: its text, or that it is refused.
fn or_refused(printed: Result<String, Number>) -> String {
    printed.unwrap_or_else(|number| format!("image refused {number}\n"))
}

/// What is written for an input, or why nothing is.
fn output(what: &str, bytes: &[u8]) -> Result<Vec<u8>, String> {
    let tables = &Tables::parse(include_str!("../tables/words.tsv"));
    match what {
        "list" | "dump" => Ok(or_refused(printed_image(bytes, what == "dump", tables)).into_bytes()),
        "wrapped" => Ok(or_refused(frames::wrapped(bytes, tables)).into_bytes()),
        "frames" | "cut" => Ok(frames::listing(bytes, what == "cut", tables).into_bytes()),
        "import" => frames::import(bytes, tables),
        _ => Err("usage: second list|dump|wrapped < image, second frames|cut|import < file".to_string()),
    }
}

fn main() {
    let what = std::env::args().nth(1).unwrap_or_default();
    let mut bytes = Vec::new();
    std::io::stdin().read_to_end(&mut bytes).expect("standard input");
    match output(&what, &bytes) {
        Ok(out) => std::io::stdout().write_all(&out).expect("standard output"),
        Err(why) => {
            eprintln!("{why}");
            std::process::exit(1);
        }
    }
}
