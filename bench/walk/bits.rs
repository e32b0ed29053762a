//! Bits of a payload, most significant first, up to an end: fields, words that are walked bit by bit, escapes; and refusals.

use crate::trees::{Trees, LEAF, NONE};

/// A refusal: its number, and the first bit of the field that it judged.
#[derive(Clone, Copy)]
pub struct Refusal {
    pub number: u32,
    pub place: u32,
}

impl Refusal {
    /// As it comes back to C: the place above the number.
    pub fn returned(self) -> u32 {
        self.number + 256 * self.place
    }
}

/// One that is told the place and the table of each word that is read.
pub trait Listener {
    fn hear(&mut self, place: usize, table: usize);
}

/// Nobody listens: what is timed.
pub struct Nobody;

impl Listener for Nobody {
    #[inline(always)]
    fn hear(&mut self, _place: usize, _table: usize) {}
}

/// The words as pairs in a lent list, place and table.
pub struct List<'a> {
    pub pairs: &'a mut [u32],
    pub used: usize,
}

impl Listener for List<'_> {
    fn hear(&mut self, place: usize, table: usize) {
        self.pairs[self.used] = place as u32;
        self.pairs[self.used + 1] = table as u32;
        self.used += 2;
    }
}

/// The bits of a payload from a place to an end.
pub struct Bits<'a, L> {
    bytes: &'a [u8],
    pub trees: &'a Trees,
    pub at: usize,
    pub end: usize,
    pub listener: L,
}

impl<'a, L: Listener> Bits<'a, L> {
    pub fn new(bytes: &'a [u8], trees: &'a Trees, listener: L) -> Bits<'a, L> {
        Bits { bytes, trees, at: 0, end: 8 * bytes.len(), listener }
    }

    #[inline(always)]
    pub fn left(&self) -> usize {
        self.end - self.at
    }

    /// A refusal of the field that comes next.
    #[inline(always)]
    pub fn refusal(&self, number: u32) -> Refusal {
        Refusal { number, place: self.at as u32 }
    }

    /// The next bits from the highest down, at least 57 of them, zeros past the payload.
    #[inline(always)]
    fn window(&self) -> u64 {
        let byte = self.at / 8;
        let eight = match self.bytes.get(byte..byte + 8) {
            Some(bytes) => u64::from_be_bytes(bytes.try_into().expect("eight bytes")),
            None => self.last_bytes(byte),
        };
        eight << (self.at % 8)
    }

    /// The bytes from a place on, fewer than eight, with zeros after them.
    #[cold]
    fn last_bytes(&self, byte: usize) -> u64 {
        let mut eight = [0; 8];
        let last = &self.bytes[byte.min(self.bytes.len())..];
        eight[..last.len()].copy_from_slice(last);
        u64::from_be_bytes(eight)
    }

    /// A field of at most 57 bits: 10 where it is not wholly there.
    #[inline(always)]
    pub fn field(&mut self, width: usize) -> Result<u32, Refusal> {
        if self.left() < width {
            return Err(self.refusal(10));
        }
        let value = (self.window() >> (64 - width)) as u32;
        self.at += width;
        Ok(value)
    }

    /// A field that is judged once it is there: this number where it does not stand.
    #[inline(always)]
    pub fn judged(&mut self, width: usize, number: u32, stands: impl Fn(u32) -> bool) -> Result<u32, Refusal> {
        let wrong = self.refusal(number);
        let value = self.field(width)?;
        if stands(value) {
            Ok(value)
        } else {
            Err(wrong)
        }
    }

    /// A word of a table, its entry, walked bit by bit: 10 where the bits end inside a word, 11 where no word fits.
    #[inline(always)]
    pub fn word(&mut self, table: usize) -> Result<usize, Refusal> {
        let (mut bits, mut length) = (self.window(), 1);
        let mut node = self.trees.step(self.trees.root(table), bits >> 63);
        while node < LEAF {
            bits <<= 1;
            length += 1;
            node = self.trees.step(node, bits >> 63);
        }
        if length > self.left() {
            return Err(self.refusal(10));
        }
        if node == NONE {
            return Err(self.refusal(11));
        }
        self.listener.hear(self.at, table);
        self.at += length;
        Ok((node - LEAF) as usize)
    }

    /// An escape, one field: N ones, a zero, N + 4 bits; the ninth one is 26 at once.
    #[inline(always)]
    pub fn escape(&mut self) -> Result<u32, Refusal> {
        let bits = self.window();
        let ones = bits.leading_ones() as usize;
        if ones >= 9 {
            return Err(self.refusal(26));
        }
        let (front, width) = (ones + 1, ones + 4);
        if self.left() < front + width {
            return Err(self.refusal(10));
        }
        self.at += front + width;
        Ok((1 << width) + (bits << front >> (64 - width)) as u32)
    }

    /// The end of what is read: 12 where more than 7 bits are left.
    pub fn nearly_done(&self) -> Result<(), Refusal> {
        if self.left() > 7 {
            return Err(self.refusal(12));
        }
        Ok(())
    }
}
