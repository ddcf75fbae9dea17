//! Tables that are kept: those of docs/BYTES.md byte by byte, and those that Protocol Buffers' own library wrote.
use hivevigil::{Column, Kind, SaveOptions, Table, TableError};
use std::fs;
use std::path::PathBuf;

pub const TABLES: &str = include_str!("../../../examples/corpus/tables.txt");
pub const DIFFERENCES: &str = include_str!("../../../examples/corpus/differences.txt");
pub const SHORT: SaveOptions = SaveOptions { differences: true };

/// Names the days 7, 7 and null, and the text "ab" three times, as docs/BYTES.md has them.
pub const DAYS: &str = "
    0a 09 68 69 76 65 76 69 67 69 6c  10 01
    1a 29  08 01 10 07 18 02 20 03 40 00 48 01 52 02 02 01
           5a 17 08 01 10 07 18 01 20 02 28 04 32 01 01 3a 08 07 00 00 00 00 00 00 00
    1a 0e  08 01 10 0b 18 03 20 03 28 01 3a 02 61 62
    22 51  08 03
           12 26 0a 03 64 61 79 12 03 74 64 44 18 29 20 01 28 02
                 32 14 08 01 10 07 18 01 20 02 28 02 3a 08 07 00 00 00 07 00 00 00
           12 25 0a 05 70 6c 61 63 65 12 00 18 0e 20 00 28 01
                 32 14 08 01 10 0b 18 01 20 02 28 01 62 02 02 02 6a 04 61 62 61 62
    29 51 00 00 00 00 00 00 00";

/// Names the times 100, 160 .. 400 as differences, as docs/BYTES.md has them.
pub const TIMES: &str = "
    0a 09 68 69 76 65 76 69 67 69 6c  10 02
    1a 2e  08 01 10 08 18 02 20 06 40 00 48 01 52 02 01 05
           5a 1c 08 01 10 08 18 01 20 02 28 01 3a 10 64 00 00 00 00 00 00 00 3c 00 00 00 00 00 00 00
    22 37  08 06
           12 33 0a 02 61 74 12 07 74 73 73 3a 55 54 43 18 2e 20 00 28 06
                 32 1c 08 01 10 08 18 01 20 02 28 01 3a 10 64 00 00 00 00 00 00 00 90 01 00 00 00 00 00 00
                 38 01
    29 37 00 00 00 00 00 00 00";

pub fn bytes_of(digits: &str) -> Vec<u8> {
    let digits: Vec<u8> = digits
        .bytes()
        .filter(|byte| !byte.is_ascii_whitespace())
        .collect();
    let byte = |pair: &[u8]| u8::from_str_radix(std::str::from_utf8(pair).unwrap(), 16).unwrap();
    digits.chunks(2).map(byte).collect()
}

pub fn days() -> Result<Table, TableError> {
    let days = Column::try_from([Some(7i32), Some(7), None])?.encode_rows()?;
    let table = Table::try_from_iter([
        ("day", days),
        ("place", Column::constant(Kind::UTF8, "ab", 3)?),
    ])?;
    table.with_logical_type("day", "tdD")
}

pub fn times() -> Result<Table, TableError> {
    let times = Column::new(&[100i64, 160, 220, 280, 340, 400])?;
    Table::try_from_iter([("at", times)])?.with_logical_type("at", "tss:UTC")
}

/// Makes a folder that no other test has.
pub fn folder(name: &str) -> PathBuf {
    let folder = std::env::temp_dir().join(format!("hivevigil-{name}-{}", std::process::id()));
    fs::create_dir_all(&folder).unwrap();
    folder
}

/// Returns the bytes of each table of a corpus, with what the line says of it.
pub fn lines(corpus: &str) -> Vec<(usize, String, Vec<u8>)> {
    let line = |line: &str| {
        let parts: Vec<&str> = line.split('\t').collect();
        (
            parts[0].parse().unwrap(),
            parts[1].to_string(),
            bytes_of(parts[2]),
        )
    };
    corpus.lines().map(line).collect()
}

/// Holds a column of a table that is written by hand, and what the footer says of it.
#[derive(Clone)]
pub struct Part {
    pub name: &'static str,
    pub message: Vec<u8>,
    pub nulls: u64,
    pub runs: u64,
    pub bounds: Vec<u8>,
    pub differences: Option<u64>,
}

impl Part {
    /// Describes the column otherwise.
    pub fn with(&self, change: impl FnOnce(&mut Part)) -> Part {
        let mut other = self.clone();
        change(&mut other);
        other
    }
}

/// Writes a table by hand, well-formed or not.
pub fn written(version: u64, rows: u64, parts: &[&Part]) -> Vec<u8> {
    let (mut bytes, mut footer) = (Vec::new(), Vec::new());
    sized(&mut bytes, 1, b"hivevigil");
    number(&mut bytes, 2, version);
    number(&mut footer, 1, rows);
    for part in parts {
        sized(&mut bytes, 3, &part.message);
        let mut known = Vec::new();
        sized(&mut known, 1, part.name.as_bytes());
        sized(&mut known, 2, b"");
        number(&mut known, 3, part.message.len() as u64);
        number(&mut known, 4, part.nulls);
        number(&mut known, 5, part.runs);
        sized(&mut known, 6, &part.bounds);
        if let Some(differences) = part.differences {
            number(&mut known, 7, differences);
        }
        sized(&mut footer, 2, &known);
    }
    sized(&mut bytes, 4, &footer);
    bytes.push(0x29);
    bytes.extend((footer.len() as u64).to_le_bytes());
    bytes
}

fn number(out: &mut Vec<u8>, field: u8, number: u64) {
    out.push(field << 3);
    varint(out, number);
}

fn sized(out: &mut Vec<u8>, field: u8, content: &[u8]) {
    out.push((field << 3) | 2);
    varint(out, content.len() as u64);
    out.extend(content);
}

fn varint(out: &mut Vec<u8>, mut number: u64) {
    while number > 127 {
        out.push((number & 127) as u8 | 128);
        number >>= 7;
    }
    out.push(number as u8);
}
