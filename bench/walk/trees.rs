//! The code tables as trees in which a bit is a step, built once from tables/words.tsv; and the values of each word of a spectral book.

const WORDS: &str = include_str!("../../tables/words.tsv");

/// The tables by number, as they stand in tables/words.tsv: the scale factor book, books 1 to 11, those of stereo.
pub const TABLES: usize = 22;
pub const SCALE_FACTOR: usize = 0;
const LAST_BOOK: usize = 11;

/// Where a step leads: to the node of this number, to the end of a word (LEAF plus its entry), or nowhere.
pub const LEAF: u16 = 0x8000;
pub const NONE: u16 = 0xffff;

/// The trees of all tables in one row of nodes.
pub struct Trees {
    nodes: Vec<[u16; 2]>,
    roots: [u16; TABLES],
    tuples: [Vec<[i8; 4]>; LAST_BOOK + 1],
}

impl Trees {
    pub fn new() -> Trees {
        let tuples = std::array::from_fn(tuples_of);
        let mut trees = Trees { nodes: Vec::new(), roots: [0; TABLES], tuples };
        let (mut name, mut table) = ("", 0);
        for line in WORDS.lines().skip(1) {
            let columns: Vec<&str> = line.split('\t').collect();
            if columns[0] != name {
                table = if name.is_empty() { 0 } else { table + 1 };
                name = columns[0];
                trees.roots[table] = trees.add_node();
            }
            trees.add_word(table, columns[1].parse().expect("an entry"), columns[4]);
        }
        trees
    }

    fn add_node(&mut self) -> u16 {
        self.nodes.push([NONE; 2]);
        self.nodes.len() as u16 - 1
    }

    /// A word's way through the tree of its table; its last bit leads to the entry.
    fn add_word(&mut self, table: usize, entry: u16, word: &str) {
        let mut node = self.roots[table];
        for (place, bit) in word.bytes().enumerate() {
            let bit = (bit - b'0') as usize;
            if place + 1 == word.len() {
                self.nodes[node as usize][bit] = LEAF + entry;
            } else if self.nodes[node as usize][bit] == NONE {
                self.nodes[node as usize][bit] = self.add_node();
            }
            node = self.nodes[node as usize][bit];
        }
    }

    pub fn root(&self, table: usize) -> u16 {
        self.roots[table]
    }

    /// Where a bit leads from a node.
    #[inline(always)]
    pub fn step(&self, node: u16, bit: u64) -> u16 {
        self.nodes[node as usize][bit as usize]
    }

    /// The values of each entry of a spectral book; a book of pairs has the first two.
    pub fn tuples(&self, book: usize) -> &[[i8; 4]] {
        &self.tuples[book]
    }
}

/// How many values a word of a book has, and how many each may be; signed ones are offset by the maximum.
fn shape(book: usize) -> (usize, i32, bool) {
    match book {
        1 | 2 => (4, 3, true),
        3 | 4 => (4, 3, false),
        5 | 6 => (2, 9, true),
        7 | 8 => (2, 8, false),
        9 | 10 => (2, 13, false),
        _ => (2, 17, false),
    }
}

/// The values of each entry of a book: a mixed count, the first value most significant.
fn tuples_of(book: usize) -> Vec<[i8; 4]> {
    let (count, base, signed) = shape(book);
    let least = if signed { base / 2 } else { 0 };
    (0..base.pow(count as u32))
        .map(|entry| {
            let mut values = [0; 4];
            for (place, value) in values[..count].iter_mut().enumerate() {
                *value = (entry / base.pow((count - 1 - place) as u32) % base - least) as i8;
            }
            values
        })
        .collect()
}
