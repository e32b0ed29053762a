//! Bits of a payload, most significant first, up to an end; words of a code table; and refusals, which know the bit that they judged.

use std::fmt::{Display, Formatter};

/// A refusal's number.
pub type Number = u8;

/// A refusal: its number, and the first bit of the field that it judged, where it judged one.
#[derive(Clone, Copy)]
pub struct Refusal {
    pub number: Number,
    pub place: Option<usize>,
}

impl Refusal {
    /// A refusal that judged no bit.
    pub fn of_no_bit(number: Number) -> Refusal {
        Refusal { number, place: None }
    }
}

impl Display for Refusal {
    fn fmt(&self, out: &mut Formatter) -> std::fmt::Result {
        match self.place {
            Some(place) => write!(out, "{} at {place}", self.number),
            None => write!(out, "{}", self.number),
        }
    }
}

#[derive(Clone)]
pub struct Bits<'a> {
    bytes: &'a [u8],
    pub at: usize,
    pub end: usize,
}

impl<'a> Bits<'a> {
    pub fn new(bytes: &'a [u8]) -> Bits<'a> {
        Bits { bytes, at: 0, end: 8 * bytes.len() }
    }

    pub fn left(&self) -> usize {
        self.end - self.at
    }

    /// A refusal of the field that comes next.
    pub fn refusal(&self, number: Number) -> Refusal {
        Refusal { number, place: Some(self.at) }
    }

    fn bit(&mut self) -> u32 {
        let bit = self.bytes[self.at / 8] >> (7 - self.at % 8) & 1;
        self.at += 1;
        bit as u32
    }

    /// A number of so many bits, where they are all there.
    fn number(&mut self, n: usize) -> Option<u32> {
        if self.left() < n {
            return None;
        }
        Some((0..n).fold(0, |value, _| value << 1 | self.bit()))
    }

    /// A field: 10 where it is not wholly there.
    pub fn field(&mut self, n: usize) -> Result<u32, Refusal> {
        let cut = self.refusal(10);
        self.number(n).ok_or(cut)
    }

    /// A field that is judged once it is there: this number where it does not stand.
    pub fn judged(&mut self, n: usize, number: Number, stands: impl Fn(u32) -> bool) -> Result<u32, Refusal> {
        let wrong = self.refusal(number);
        let value = self.field(n)?;
        if stands(value) {
            Ok(value)
        } else {
            Err(wrong)
        }
    }

    /// The end of what is read: 12, at the first bit unused, where more than 7 bits are left.
    pub fn nearly_done(&self) -> Result<(), Refusal> {
        if self.left() > 7 {
            return Err(self.refusal(12));
        }
        Ok(())
    }

    /// A word of a table, its entry: 10 where the bits end inside a word, 11 where no word fits, both at its first bit.
    pub fn word(&mut self, table: &Table) -> Result<usize, Refusal> {
        let (cut, no_word) = (self.refusal(10), self.refusal(11));
        let mut node = 0;
        loop {
            if let Some(entry) = table.nodes[node].entry {
                return Ok(entry);
            }
            let bit = self.number(1).ok_or(cut)?;
            node = table.nodes[node].next[bit as usize].ok_or(no_word)?;
        }
    }

    /// An escape of book 11, which is one field: N ones, a zero, N + 4 bits.
    pub fn escape(&mut self) -> Result<u32, Refusal> {
        let (cut, too_large) = (self.refusal(10), self.refusal(26));
        let mut ones = 0;
        while self.number(1).ok_or(cut)? == 1 {
            ones += 1;
            if ones == 9 {
                return Err(too_large);
            }
        }
        Ok((1 << (ones + 4)) + self.number(ones + 4).ok_or(cut)?)
    }
}

/// Bits that are written one after another, the last byte filled up with zero bits.
#[derive(Default)]
pub struct Written {
    pub bytes: Vec<u8>,
    count: usize,
}

impl Written {
    /// A number in so many bits.
    pub fn put(&mut self, value: u32, width: usize) {
        for k in (0..width).rev() {
            if self.count % 8 == 0 {
                self.bytes.push(0);
            }
            *self.bytes.last_mut().expect("a byte") |= ((value >> k & 1) as u8) << (7 - self.count % 8);
            self.count += 1;
        }
    }

    /// So many bits from the place where others stand, which must have them.
    pub fn copy(&mut self, from: &mut Bits, count: usize) {
        for _ in 0..count {
            self.put(from.bit(), 1);
        }
    }
}

#[derive(Default)]
struct Node {
    entry: Option<usize>,
    next: [Option<usize>; 2],
}

/// A code table, as a tree of its words.
pub struct Table {
    nodes: Vec<Node>,
}

impl Table {
    fn new() -> Table {
        Table { nodes: vec![Node::default()] }
    }

    fn add(&mut self, word: &str, entry: usize) {
        let mut node = 0;
        for bit in word.bytes() {
            let bit = (bit == b'1') as usize;
            node = match self.nodes[node].next[bit] {
                Some(next) => next,
                None => {
                    self.nodes.push(Node::default());
                    let next = self.nodes.len() - 1;
                    self.nodes[node].next[bit] = Some(next);
                    next
                }
            };
        }
        self.nodes[node].entry = Some(entry);
    }
}

/// All tables by name, from the lines of tables/words.tsv: table, entry, value, length, word.
pub struct Tables {
    named: Vec<(String, Table)>,
}

impl Tables {
    pub fn parse(text: &str) -> Tables {
        let mut named: Vec<(String, Table)> = Vec::new();
        for line in text.lines().skip(1) {
            let columns: Vec<&str> = line.split('\t').collect();
            if named.last().map_or(true, |last| last.0 != columns[0]) {
                named.push((columns[0].to_string(), Table::new()));
            }
            let entry = columns[1].parse().expect("an entry number");
            named.last_mut().expect("a table").1.add(columns[4], entry);
        }
        Tables { named }
    }

    pub fn get(&self, name: &str) -> &Table {
        &self.named.iter().find(|table| table.0 == name).expect("a table of this name").1
    }
}
