//! What the tests share: the documents' tables and listings, and modules put together from rows.

#![allow(dead_code)]

use compare::reading::module::{open, Checked, Shape};
use std::fs;
use std::path::Path;

/// A listing or a table of a document.
#[derive(Debug)]
pub struct Block {
    /// The heading above it.
    pub heading: String,
    /// The `<!-- comment -->` before it; empty if there is none.
    pub comment: String,
    pub content: Content,
}

#[derive(Debug)]
pub enum Content {
    Listing(String),
    Table(Table),
}

#[derive(Debug)]
pub struct Table {
    pub header: Vec<String>,
    pub rows: Vec<Vec<String>>,
}

impl Table {
    /// The cells of each row in the columns of these names.
    pub fn columns<const K: usize>(&self, names: [&str; K]) -> Vec<[&str; K]> {
        let numbers = names.map(|name| {
            let number = self.header.iter().position(|column| column == name);
            number.unwrap_or_else(|| panic!("no column {name} in {:?}", self.header))
        });
        self.rows
            .iter()
            .map(|row| numbers.map(|number| row[number].as_str()))
            .collect()
    }
}

/// All listings and tables of a page, in order.
pub fn blocks(page: &str) -> Vec<Block> {
    let path = Path::new(env!("CARGO_MANIFEST_DIR"))
        .join("../docs")
        .join(page);
    let text = fs::read_to_string(&path).expect("the page is there");
    let mut lines = text.lines().peekable();
    let mut heading = String::new();
    let mut comment = String::new();
    let mut found = Vec::new();
    while let Some(line) = lines.next() {
        if line.starts_with('#') {
            heading = line.trim_start_matches('#').trim().to_string();
        } else if let Some(rest) = line.strip_prefix("<!--") {
            comment = rest.trim_end_matches("-->").trim().to_string();
        } else if line.starts_with("```") {
            let mut listing = String::new();
            for line in lines.by_ref().take_while(|line| !line.starts_with("```")) {
                listing += line;
                listing += "\n";
            }
            found.push(Block {
                heading: heading.clone(),
                comment: std::mem::take(&mut comment),
                content: Content::Listing(listing),
            });
        } else if line.starts_with('|') {
            let header = cells(line);
            lines.next();
            let mut rows = Vec::new();
            while let Some(row) = lines.next_if(|line| line.starts_with('|')) {
                rows.push(cells(row));
                assert_eq!(rows[rows.len() - 1].len(), header.len());
            }
            found.push(Block {
                heading: heading.clone(),
                comment: std::mem::take(&mut comment),
                content: Content::Table(Table { header, rows }),
            });
        }
    }
    found
}

fn cells(line: &str) -> Vec<String> {
    // a bar with a backslash before it belongs to its cell
    let line = line.replace("\\|", "\u{a6}");
    let inner = line.trim().trim_start_matches('|').trim_end_matches('|');
    let cells = inner.split('|').map(|cell| cell.trim().replace('\u{a6}', "|"));
    cells.collect()
}

/// The tables under a heading of a page.
pub fn tables(page: &str, heading: &str) -> Vec<Table> {
    let under = blocks(page)
        .into_iter()
        .filter(|block| block.heading == heading);
    let tables: Vec<Table> = under
        .filter_map(|block| match block.content {
            Content::Table(table) => Some(table),
            Content::Listing(_) => None,
        })
        .collect();
    assert!(!tables.is_empty(), "no table under {heading}");
    tables
}

/// The bytes of a module that a page lists under this name.
pub fn module_of(page: &str, name: &str) -> Vec<u8> {
    let comment = format!("module {name}");
    let page = blocks(page);
    let block = page.iter().find(|block| block.comment == comment);
    match block.map(|block| &block.content) {
        Some(Content::Listing(listing)) => hex(listing),
        _ => panic!("no module {name}"),
    }
}

/// The number at the beginning of a cell: `4,096`, or `4294967289 (−7)`.
pub fn number(cell: &str) -> u64 {
    let first = cell.split(' ').next().expect("a cell has a first word");
    let digits = first.replace(',', "");
    digits.parse().unwrap_or_else(|_| panic!("{cell}"))
}

/// The bytes of hexadecimal text, which may stand in backticks.
pub fn hex(text: &str) -> Vec<u8> {
    let digits: Vec<u8> = text
        .chars()
        .filter(|c| !c.is_whitespace() && *c != '`')
        .map(|c| c.to_digit(16).expect("a hexadecimal digit") as u8)
        .collect();
    assert_eq!(digits.len() % 2, 0);
    digits.chunks(2).map(|two| two[0] << 4 | two[1]).collect()
}

/// A row: op, a, b, c, n.
pub type Fields = (u8, u8, u8, u8, u32);

pub const NEW: Fields = (0, 0, 0, 0, 0);
pub const KILL: Fields = (2, 0, 0, 0, 0);
pub const RET: Fields = (23, 0, 0, 0, 0);
pub const TICK: Fields = (26, 0, 0, 0, 0);

pub fn def(n: u32) -> Fields {
    (1, 0, 0, 0, n)
}

/// A routine: arguments, results, rows.
pub type Parts<'a> = (u8, u8, &'a [Fields]);

/// The module that these routines and this image make.
pub fn assemble(routines: &[Parts], image: &[u8]) -> Vec<u8> {
    let mut bytes = Vec::new();
    bytes.extend((routines.len() as u16).to_le_bytes());
    bytes.extend((image.len() as u16).to_le_bytes());
    let mut offset = 4 + 8 * routines.len();
    for (arguments, results, rows) in routines {
        bytes.extend((offset as u32).to_le_bytes());
        bytes.extend((rows.len() as u16).to_le_bytes());
        bytes.extend([*arguments, *results]);
        offset += 8 * rows.len();
    }
    for (_, _, rows) in routines {
        for (op, a, b, c, n) in *rows {
            bytes.extend([*op, *a, *b, *c]);
            bytes.extend(n.to_le_bytes());
        }
    }
    bytes.extend(image);
    bytes
}

/// A module of one routine.
pub fn single(rows: &[Fields]) -> Vec<u8> {
    assemble(&[(0, 0, rows)], &[])
}

/// The checked module of these bytes.
pub fn checked(bytes: &[u8]) -> Checked<'_> {
    let mut sheet = [Shape::default(); 4096];
    let opened = open(bytes).expect("it opens");
    opened.into_checked(&mut sheet).expect("it is accepted")
}

/// What check answers, as `number routine instruction`, or `accepted`.
pub fn answer_of_check(bytes: &[u8]) -> String {
    let mut sheet = [Shape::default(); 4096];
    match open(bytes).and_then(|opened| opened.check(&mut sheet)) {
        Ok(()) => "accepted".to_string(),
        Err(refusal) => {
            let place = refusal.place();
            let number = refusal.number();
            format!("{number} {} {}", place.routine, place.instruction)
        }
    }
}

/// Numbers that look as if drawn at random, the same in every run.
pub struct Random(pub u64);

impl Random {
    pub fn next(&mut self) -> u64 {
        self.0 ^= self.0 << 13;
        self.0 ^= self.0 >> 7;
        self.0 ^= self.0 << 17;
        self.0.wrapping_mul(0x2545_F491_4F6C_DD1D) >> 16
    }

    pub fn below(&mut self, bound: u64) -> u64 {
        self.next() % bound
    }
}
