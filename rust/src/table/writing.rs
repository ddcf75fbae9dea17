//! Tables as bytes and as files.
use super::differences::kept;
use super::footer::ColumnFooter;
use super::message::{content_head, put_content, put_number};
use super::{Table, TableError};
use crate::{Column, Form};
use std::fs::{self, File, OpenOptions};
use std::io::{self, BufWriter, Write};
use std::path::{Path, PathBuf};
use std::sync::atomic::{AtomicU64, Ordering};

/// Chooses how a table is written; by default each column as its rows, in version 1 of tables.
#[derive(Clone, Copy, Debug, Default, PartialEq, Eq)]
pub struct SaveOptions {
    /// Keeps columns of integers and times as differences where these are shorter, as for times at regular steps. A
    /// table of which a column is kept so has version 2, which readers of version 1 refuse.
    pub differences: bool,
}

/// Tables kept and sent.
impl Table {
    /// Writes the table as bytes, each column in the form that it has: a message of the Protocol Buffers encoding.
    /// Refused only as `Unsupported`, for more than 16 levels of runs, and for memory.
    pub fn to_bytes(&self) -> Result<Vec<u8>, TableError> {
        self.to_bytes_with(SaveOptions::default())
    }

    /// Writes the same in the way that the options choose.
    ///
    /// ```
    /// use hivevigil::{Column, SaveOptions, Table};
    /// let at: Column = (0..1000).map(|row| 1_700_000_000 + 60 * row as i64).collect();
    /// let table = Table::try_from_iter([("at", at)])?.with_logical_type("at", "tss:UTC")?;
    /// let short = table.to_bytes_with(SaveOptions { differences: true })?;
    /// assert!(short.len() < 150 && table.to_bytes()?.len() > 8000);
    /// assert_eq!(Table::from_bytes(&short)?, table);
    /// # Ok::<(), hivevigil::TableError>(())
    /// ```
    pub fn to_bytes_with(&self, options: SaveOptions) -> Result<Vec<u8>, TableError> {
        let mut bytes = Vec::new();
        for part in self.parts(options)? {
            bytes.extend(part?);
        }
        Ok(bytes)
    }

    /// Writes the bytes of [`Table::to_bytes`] to a file, a column at a time. A file of this name is replaced at once
    /// when all is written, and stays as it was where that fails.
    pub fn save(&self, path: impl AsRef<Path>) -> Result<(), TableError> {
        self.save_with(path, SaveOptions::default())
    }

    /// Writes the same in the way that the options choose.
    pub fn save_with(
        &self,
        path: impl AsRef<Path>,
        options: SaveOptions,
    ) -> Result<(), TableError> {
        let path = path.as_ref();
        let refused = |error| TableError::File {
            path: path.to_path_buf(),
            error,
        };
        let target = fs::canonicalize(path).unwrap_or_else(|_| path.to_path_buf());
        let part = Unfinished::beside(&target);
        let mut file = BufWriter::new(part.create().map_err(refused)?);
        for bytes in self.parts(options)? {
            file.write_all(&bytes?).map_err(refused)?;
        }
        let file = file
            .into_inner()
            .map_err(|error| refused(error.into_error()))?;
        part.take_place_of(&target, &file).map_err(refused)
    }

    /// Returns the parts of the bytes: the head, each column, and the end.
    fn parts(
        &self,
        options: SaveOptions,
    ) -> Result<impl Iterator<Item = Result<Vec<u8>, TableError>> + '_, TableError> {
        let mut shorter = Vec::new();
        for (name, column) in self.iter().filter(|_| options.differences) {
            shorter.push(kept(column).map_err(TableError::of(name))?);
        }
        let version = if shorter.iter().any(Option::is_some) {
            2
        } else {
            1
        };
        shorter.resize(self.len(), None);
        let mut footer = Vec::new();
        put_number(&mut footer, 1, self.rows() as u64);
        let columns = self.iter().zip(shorter).map(Some).chain([None]);
        let parts = columns.map(move |column| match column {
            Some((named, shorter)) => part(named, shorter, version, &mut footer),
            None => Ok(end(&footer)),
        });
        Ok(std::iter::once(Ok(head(version))).chain(parts))
    }
}

const MAGIC: &[u8] = b"hivevigil";
pub(super) const COLUMN: u64 = 3;
pub(super) const FOOTER: u64 = 4;
pub(super) const FOOTER_SIZE: u8 = (5 << 3) | 1; // the key of a field of 8 bytes

/// Returns the bytes that a table of this version begins with.
pub(super) fn head(version: u64) -> Vec<u8> {
    let mut out = Vec::new();
    put_content(&mut out, 1, MAGIC);
    put_number(&mut out, 2, version);
    out
}

fn end(footer: &[u8]) -> Vec<u8> {
    let mut out = Vec::new();
    put_content(&mut out, FOOTER, footer);
    out.push(FOOTER_SIZE);
    out.extend((footer.len() as u64).to_le_bytes());
    out
}

/// Returns the field of a column, of its rows or of its differences, and adds what is known of it to the footer.
fn part(
    (name, column): (&str, &Column),
    shorter: Option<(Form, Vec<u8>)>,
    version: u64,
    footer: &mut Vec<u8>,
) -> Result<Vec<u8>, TableError> {
    let refused = TableError::of(name);
    let (form, message) = match shorter {
        Some((form, message)) => (Some(form), message),
        None => {
            let untyped = column.with_logical_type(""); // its logical type goes to the footer
            let message = untyped.and_then(|column| column.to_bytes());
            (None, message.map_err(&refused)?)
        }
    };
    let size = message.len();
    let known = ColumnFooter::of(name, column, size, form);
    put_content(footer, 2, &known.map_err(&refused)?.message(version));
    let mut part = content_head(COLUMN, size as u64);
    part.extend(message);
    Ok(part)
}

/// Names a file next to another one, which takes its place when all is written, and is removed where it does not.
struct Unfinished {
    path: PathBuf,
}

impl Unfinished {
    fn beside(target: &Path) -> Unfinished {
        static COUNT: AtomicU64 = AtomicU64::new(0);
        let count = COUNT.fetch_add(1, Ordering::Relaxed);
        let name = format!(".hivevigil-{}-{count}.part", std::process::id());
        Unfinished {
            path: target.with_file_name(name),
        }
    }

    fn create(&self) -> io::Result<File> {
        OpenOptions::new()
            .write(true)
            .create_new(true)
            .open(&self.path)
    }

    fn take_place_of(&self, target: &Path, file: &File) -> io::Result<()> {
        file.sync_all()?;
        if let Ok(replaced) = fs::metadata(target) {
            fs::set_permissions(&self.path, replaced.permissions())?;
        }
        fs::rename(&self.path, target)
    }
}

impl Drop for Unfinished {
    fn drop(&mut self) {
        let _ = fs::remove_file(&self.path); // there is none where it took the place
    }
}
