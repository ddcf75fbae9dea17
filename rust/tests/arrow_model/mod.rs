//! Arrow's two interfaces once more, from the specification: arrays made of rows, with every release counted, and rows
//! read out of arrays.
#![allow(dead_code)] // each test uses a part
use std::ffi::{c_char, c_int, c_void, CStr, CString};
use std::ptr;
use std::sync::atomic::{AtomicIsize, Ordering};
use std::sync::Arc;

mod read;
mod types;
#[allow(unused_imports)]
pub use read::rows_of;
pub use types::{Cell, Type};

#[repr(C)]
pub struct Schema {
    pub format: *const c_char,
    pub name: *const c_char,
    pub metadata: *const c_char,
    pub flags: i64,
    pub n_children: i64,
    pub children: *mut *mut Schema,
    pub dictionary: *mut Schema,
    pub release: Option<unsafe extern "C" fn(*mut Schema)>,
    pub private_data: *mut c_void,
}

#[repr(C)]
pub struct Array {
    pub length: i64,
    pub null_count: i64,
    pub offset: i64,
    pub n_buffers: i64,
    pub n_children: i64,
    pub buffers: *mut *const c_void,
    pub children: *mut *mut Array,
    pub dictionary: *mut Array,
    pub release: Option<unsafe extern "C" fn(*mut Array)>,
    pub private_data: *mut c_void,
}

#[repr(C)]
pub struct Stream {
    pub get_schema: Option<unsafe extern "C" fn(*mut Stream, *mut Schema) -> c_int>,
    pub get_next: Option<unsafe extern "C" fn(*mut Stream, *mut Array) -> c_int>,
    pub get_last_error: Option<unsafe extern "C" fn(*mut Stream) -> *const c_char>,
    pub release: Option<unsafe extern "C" fn(*mut Stream)>,
    pub private_data: *mut c_void,
}

/// Holds what a struct owns: all of it is freed by its release callback.
struct Owned<T> {
    texts: Vec<CString>,
    buffers: Vec<Vec<u64>>,
    pointers: Vec<*const c_void>,
    children: Vec<*mut T>,
    dictionary: *mut T,
    live: Arc<AtomicIsize>,
}

/// Rolls numbers that look random.
pub struct Dice(pub u64);

impl Dice {
    pub fn below(&mut self, count: u64) -> u64 {
        let (product, step) = (6364136223846793005u64, 1442695040888963407);
        self.0 = self.0.wrapping_mul(product).wrapping_add(step);
        (self.0 >> 33) % count
    }
}

macro_rules! released {
    ($release:ident, $struct:ty) => {
        unsafe extern "C" fn $release(from: *mut $struct) {
            let owned = Box::from_raw((*from).private_data.cast::<Owned<$struct>>());
            for part in owned.children.iter().copied().chain([owned.dictionary]) {
                if part.is_null() {
                    continue;
                }
                if let Some(release) = (*part).release {
                    release(part);
                }
                drop(Box::from_raw(part));
            }
            owned.live.fetch_sub(1, Ordering::SeqCst);
            (*from).release = None;
        }
    };
}
released!(release_schema, Schema);
released!(release_array, Array);

/// Makes arrays, and counts the structs that are not released.
pub struct Maker {
    pub dice: Dice,
    pub live: Arc<AtomicIsize>,
}

/// Collects the parts of an array that is being made.
#[derive(Default)]
struct Parts {
    length: usize,
    offset: usize,
    null_count: i64,
    buffers: Vec<Option<Vec<u8>>>,
    children: Vec<Array>,
    dictionary: Option<Array>,
}

impl Maker {
    pub fn new(seed: u64) -> Maker {
        Maker {
            dice: Dice(seed),
            live: Arc::default(),
        }
    }

    pub fn live(&self) -> isize {
        self.live.load(Ordering::SeqCst)
    }

    fn owned<T>(&self, children: Vec<T>, dictionary: Option<T>) -> Owned<T> {
        self.live.fetch_add(1, Ordering::SeqCst);
        Owned {
            texts: Vec::new(),
            buffers: Vec::new(),
            pointers: Vec::new(),
            children: children
                .into_iter()
                .map(|child| Box::into_raw(Box::new(child)))
                .collect(),
            dictionary: dictionary.map_or(ptr::null_mut(), |one| Box::into_raw(Box::new(one))),
            live: self.live.clone(),
        }
    }

    pub fn schema_of(
        &self,
        format: &str,
        name: &str,
        nullable: bool,
        children: Vec<Schema>,
        dictionary: Option<Schema>,
    ) -> Schema {
        let mut owned = Box::new(self.owned(children, dictionary));
        owned.texts = [format, name]
            .iter()
            .map(|text| CString::new(*text).unwrap())
            .collect();
        Schema {
            format: owned.texts[0].as_ptr(),
            name: owned.texts[1].as_ptr(),
            metadata: ptr::null(),
            flags: if nullable { 2 } else { 0 },
            n_children: owned.children.len() as i64,
            children: owned.children.as_mut_ptr(),
            dictionary: owned.dictionary,
            release: Some(release_schema),
            private_data: Box::into_raw(owned).cast(),
        }
    }

    fn array_of(&self, parts: Parts) -> Array {
        let mut owned = Box::new(self.owned(parts.children, parts.dictionary));
        for buffer in &parts.buffers {
            let Some(bytes) = buffer else {
                owned.pointers.push(ptr::null());
                continue;
            };
            let mut words = vec![0u64; bytes.len() / 8 + 1]; // aligned as Arrow recommends
            for (at, byte) in bytes.iter().enumerate() {
                words[at / 8] |= u64::from(*byte) << (at % 8 * 8);
            }
            owned.pointers.push(words.as_ptr().cast());
            owned.buffers.push(words);
        }
        Array {
            length: parts.length as i64,
            null_count: parts.null_count,
            offset: parts.offset as i64,
            n_buffers: owned.pointers.len() as i64,
            n_children: owned.children.len() as i64,
            buffers: owned.pointers.as_mut_ptr(),
            children: owned.children.as_mut_ptr(),
            dictionary: owned.dictionary,
            release: Some(release_array),
            private_data: Box::into_raw(owned).cast(),
        }
    }

    /// Makes an array of rows, within others that it does not show.
    pub fn array(&mut self, kind: &Type, rows: &[Cell]) -> Array {
        let before = self.dice.below(20) as usize;
        let nullable = rows.contains(&Cell::Null);
        let mut all = self.rows(kind, before, nullable);
        all.extend_from_slice(rows);
        let after = self.dice.below(4) as usize;
        all.extend(self.rows(kind, after, nullable));
        let nulls = rows.iter().filter(|row| **row == Cell::Null).count() as i64;
        let mut parts = self.parts(kind, &all);
        let runs = matches!(kind, Type::Runs(..));
        let counted = runs || self.dice.below(2) == 0;
        parts.null_count = if runs {
            0
        } else if counted {
            nulls
        } else {
            -1
        };
        (parts.length, parts.offset) = (rows.len(), before);
        self.array_of(parts)
    }

    /// Lays out rows in buffers and children.
    fn parts(&mut self, kind: &Type, rows: &[Cell]) -> Parts {
        let valid: Vec<bool> = rows.iter().map(|row| *row != Cell::Null).collect();
        let bits = valid.contains(&false).then(|| packed(&valid));
        let mut parts = Parts {
            buffers: vec![bits],
            ..Parts::default()
        };
        match kind {
            Type::Number(_, width) => parts.buffers.push(Some(
                rows.iter().flat_map(|row| number(row, *width)).collect(),
            )),
            Type::Truth => {
                let truths: Vec<bool> = rows.iter().map(|row| *row == Cell::Truth(true)).collect();
                parts.buffers.push(Some(packed(&truths)))
            }
            Type::Text(_, width) => {
                let texts: Vec<&[u8]> = rows.iter().map(bytes).collect();
                parts
                    .buffers
                    .push(Some(offsets(texts.iter().map(|text| text.len()), *width)));
                parts.buffers.push(Some(texts.concat()))
            }
            Type::View(_) => parts.buffers.extend(self.views(rows)),
            Type::Fixed(width) => {
                let padded = |row| [bytes(row), &vec![0; width - bytes(row).len()]].concat();
                parts
                    .buffers
                    .push(Some(rows.iter().flat_map(padded).collect()))
            }
            Type::List(width, inner) => {
                let lists: Vec<&[Cell]> = rows.iter().map(items).collect();
                parts
                    .buffers
                    .push(Some(offsets(lists.iter().map(|list| list.len()), *width)));
                parts.children.push(self.array(inner, &lists.concat()))
            }
            Type::Runs(width, inner) => return self.runs(rows, *width, inner),
            Type::Coded(_, width, inner) => return self.coded(rows, *width, inner, parts),
        }
        parts
    }

    fn runs(&mut self, rows: &[Cell], width: usize, inner: &Type) -> Parts {
        let (mut ends, mut values) = (Vec::new(), Vec::new());
        for (row, cell) in rows.iter().enumerate() {
            let splits = self.dice.below(8) == 0; // two runs may have one value
            if rows.get(row + 1) != Some(cell) || splits {
                ends.push(Cell::Number(row as i128 + 1));
                values.push(cell.clone());
            }
        }
        let kind = Type::Number(String::new(), width);
        let (mut ends_parts, count) = (self.parts(&kind, &ends), ends.len());
        ends_parts.length = count;
        let children = vec![self.array_of(ends_parts), self.array(inner, &values)];
        Parts {
            children,
            ..Parts::default()
        }
    }

    fn coded(&mut self, rows: &[Cell], width: usize, inner: &Type, mut parts: Parts) -> Parts {
        let mut values: Vec<Cell> = Vec::new();
        let mut codes = Vec::new();
        for cell in rows {
            let found = values.iter().position(|value| value == cell);
            if found.is_none() && *cell != Cell::Null {
                values.push(cell.clone());
            }
            let code = found.unwrap_or(values.len().saturating_sub(1));
            codes.extend(number(&Cell::Number(code as i128), width));
        }
        parts.buffers.push(Some(codes));
        parts.dictionary = Some(self.array(inner, &values));
        parts
    }

    /// Lays out views, the long ones in two buffers, and then the sizes of these.
    fn views(&mut self, rows: &[Cell]) -> Vec<Option<Vec<u8>>> {
        let (mut views, mut data) = (Vec::new(), [Vec::new(), Vec::new()]);
        for row in rows {
            let text = bytes(row);
            views.extend((text.len() as i32).to_le_bytes());
            if text.len() <= 12 {
                views.extend([text, &vec![0; 12 - text.len()]].concat());
                continue;
            }
            let which = self.dice.below(2) as usize;
            let start = data[which].len();
            data[which].extend_from_slice(text);
            views.extend(&text[..4]);
            views.extend((which as i32).to_le_bytes());
            views.extend((start as i32).to_le_bytes());
        }
        let sizes = data
            .iter()
            .flat_map(|buffer| (buffer.len() as i64).to_le_bytes())
            .collect();
        let [first, second] = data;
        vec![Some(views), Some(first), Some(second), Some(sizes)]
    }

    pub fn schema(&self, kind: &Type, name: &str, nullable: bool) -> Schema {
        let (children, dictionary) = match kind {
            Type::List(_, inner) => (vec![self.schema(inner, "item", true)], None),
            Type::Runs(width, inner) => {
                let ends = Type::Number(["s", "i", "l"][width / 4].into(), *width);
                let ends = self.schema(&ends, "run_ends", false);
                (vec![ends, self.schema(inner, "values", nullable)], None)
            }
            Type::Coded(_, _, inner) => (Vec::new(), Some(self.schema(inner, "", false))),
            _ => (Vec::new(), None),
        };
        self.schema_of(&kind.format(), name, nullable, children, dictionary)
    }

    /// Makes a batch of columns, whose rows are null where `valid` is false.
    pub fn batch(&mut self, kinds: &[Type], columns: &[Vec<Cell>], valid: &[bool]) -> Array {
        let columns = kinds.iter().zip(columns);
        let parts = Parts {
            length: valid.len(),
            null_count: -1,
            buffers: vec![valid.contains(&false).then(|| packed(valid))],
            children: columns.map(|(kind, rows)| self.array(kind, rows)).collect(),
            ..Parts::default()
        };
        self.array_of(parts)
    }

    pub fn batch_schema(&self, kinds: &[Type]) -> Schema {
        let children = kinds.iter().map(|kind| self.schema(kind, "column", true));
        self.schema_of("+s", "", false, children.collect(), None)
    }

    /// Makes rows that often repeat the one before.
    pub fn rows(&mut self, kind: &Type, count: usize, nullable: bool) -> Vec<Cell> {
        let (mut rows, mut row) = (Vec::new(), self.cell(kind, nullable));
        for _ in 0..count {
            if self.dice.below(3) == 0 {
                row = self.cell(kind, nullable);
            }
            rows.push(row.clone());
        }
        rows
    }

    fn cell(&mut self, kind: &Type, nullable: bool) -> Cell {
        if nullable && self.dice.below(4) == 0 {
            return Cell::Null;
        }
        match kind {
            Type::Number(format, width) => {
                let number = self.dice.below(90) as i128 - 20;
                let unsigned = ["C", "S", "I", "L", "e", "f", "g"].contains(&format.as_str());
                let mask = (1i128 << (8 * (*width).min(8))) - 1;
                Cell::Number(if unsigned { number & mask } else { number })
            }
            Type::Truth => Cell::Truth(self.dice.below(2) == 0),
            Type::Text(..) | Type::View(_) => {
                let count = self.dice.below(20) as usize;
                Cell::Bytes("é€".repeat(count).into_bytes())
            }
            Type::Fixed(width) => {
                Cell::Bytes((0..*width).map(|_| self.dice.below(3) as u8).collect())
            }
            Type::List(_, inner) => {
                let count = self.dice.below(4) as usize;
                Cell::List(self.rows(inner, count, true))
            }
            Type::Runs(_, inner) | Type::Coded(_, _, inner) => self.cell(inner, false),
        }
    }
}

fn packed(flags: &[bool]) -> Vec<u8> {
    let mut bits = vec![0u8; (flags.len() + 7) / 8];
    for (row, _) in flags.iter().enumerate().filter(|(_, flag)| **flag) {
        bits[row / 8] |= 1 << (row % 8);
    }
    bits
}

fn number(row: &Cell, width: usize) -> Vec<u8> {
    let number = if let Cell::Number(number) = row {
        *number
    } else {
        7
    }; // where null, any number
    number.to_le_bytes()[..width].to_vec()
}

fn offsets(sizes: impl Iterator<Item = usize>, width: usize) -> Vec<u8> {
    let (mut all, mut end) = (vec![0u8; width], 0u64);
    for size in sizes {
        end += size as u64;
        all.extend(&end.to_le_bytes()[..width]);
    }
    all
}

fn bytes(row: &Cell) -> &[u8] {
    if let Cell::Bytes(bytes) = row {
        bytes
    } else {
        &[]
    }
}

fn items(row: &Cell) -> &[Cell] {
    if let Cell::List(items) = row {
        items
    } else {
        &[]
    }
}

/// Reads a text of C.
pub fn text(from: *const c_char) -> String {
    unsafe { CStr::from_ptr(from) }
        .to_str()
        .unwrap()
        .to_string()
}
