//! Tables read from bytes and from files.
use super::footer::ColumnFooter;
use super::message::{content_head, Damaged, Fields};
use super::writing::{head, COLUMN, FOOTER, FOOTER_SIZE};
use super::{differences, refuse_twice, Table, TableError, TableFooter};
use crate::{Column, Error, ErrorKind};
use std::fs::File;
use std::io::{self, Cursor, Read, Seek, SeekFrom};
use std::path::{Path, PathBuf};

/// Chooses how a table is read.
#[derive(Clone, Copy, Debug, PartialEq, Eq)]
pub struct LoadOptions {
    /// Counts the bytes that the columns which are read and kept as differences may take in memory, all together; by
    /// default 2^30. A few bytes may say that there are many rows.
    pub limit: u64,
}

impl Default for LoadOptions {
    fn default() -> LoadOptions {
        LoadOptions { limit: 1 << 30 }
    }
}

/// Tables that were kept.
impl Table {
    /// Reads the table that [`Table::to_bytes`] wrote, each column in the form that it had; refused as `Damaged` for
    /// bytes that are not those of a table, and as `OverLimit`.
    pub fn from_bytes(bytes: &[u8]) -> Result<Table, TableError> {
        Table::from_bytes_with(bytes, LoadOptions::default())
    }

    /// Reads the same in the way that the options choose.
    ///
    /// ```
    /// use hivevigil::{Column, LoadOptions, SaveOptions, Table, TableError};
    /// let at: Column = (0..1000).map(|row| 60 * row as i64).collect();
    /// let table = Table::try_from_iter([("at", at)])?;
    /// let short = table.to_bytes_with(SaveOptions { differences: true })?;
    /// assert_eq!(Table::from_bytes_with(&short, LoadOptions { limit: 8000 })?, table);
    /// let refused = Table::from_bytes_with(&short, LoadOptions { limit: 7999 }).unwrap_err();
    /// assert!(matches!(refused, TableError::OverLimit { bytes: 8000, limit: 7999, .. }));
    /// # Ok::<(), hivevigil::TableError>(())
    /// ```
    pub fn from_bytes_with(bytes: &[u8], options: LoadOptions) -> Result<Table, TableError> {
        Kept::open(Box::new(Cursor::new(bytes)), None)?.table(options)
    }

    /// Reads the table that [`Table::save`] wrote to a file; refused as `Damaged` for other bytes, as `File` where the
    /// file is not read, and as `OverLimit`.
    pub fn load(path: impl AsRef<Path>) -> Result<Table, TableError> {
        Table::load_with(path, LoadOptions::default())
    }

    /// Reads the same in the way that the options choose.
    pub fn load_with(path: impl AsRef<Path>, options: LoadOptions) -> Result<Table, TableError> {
        Kept::of_file(path.as_ref())?.table(options)
    }

    /// Reads its columns of these names, in this order, and no other; refused also as `NoSuchColumn` and
    /// `RepeatedName`.
    pub fn load_columns(
        path: impl AsRef<Path>,
        names: impl IntoIterator<Item = impl AsRef<str>>,
    ) -> Result<Table, TableError> {
        Table::load_columns_with(path, names, LoadOptions::default())
    }

    /// Reads the same in the way that the options choose.
    pub fn load_columns_with(
        path: impl AsRef<Path>,
        names: impl IntoIterator<Item = impl AsRef<str>>,
        options: LoadOptions,
    ) -> Result<Table, TableError> {
        let names: Vec<_> = names.into_iter().collect();
        let mut kept = Kept::of_file(path.as_ref())?;
        refuse_twice(names.iter().map(AsRef::as_ref))?;
        let mut known = Vec::new();
        for name in &names {
            known.push(kept.footer.column(name.as_ref())?);
        }
        kept.check_limit(kept.footer.kept_bytes(known.into_iter()), options)?;
        let columns = names.iter().map(|name| kept.column(name.as_ref()));
        let columns: Vec<_> = columns.collect::<Result<_, _>>()?;
        Table::of(&columns, kept.footer.rows)
    }

    /// Reads what the end of a file says, and no column; refused as [`Table::load`].
    ///
    /// ```no_run
    /// use hivevigil::{Operator, Table};
    /// let footer = Table::footer("readings.hv")?;
    /// if footer.may_have("level", Operator::Greater, 903)? {
    ///     println!("{} rows to be read", footer.rows);
    /// }
    /// # Ok::<(), hivevigil::TableError>(())
    /// ```
    pub fn footer(path: impl AsRef<Path>) -> Result<TableFooter, TableError> {
        Kept::of_file(path.as_ref()).map(|kept| kept.footer)
    }
}

/// Says why a table was not read.
#[derive(Debug)]
pub(super) enum Unread {
    /// Says that the bytes are not those of a table.
    Damaged,
    /// Says that memory was refused.
    Refused(Error),
    /// Says that the system does not read.
    System(io::Error),
}

impl From<Damaged> for Unread {
    fn from(_: Damaged) -> Unread {
        Unread::Damaged
    }
}

impl From<Error> for Unread {
    fn from(error: Error) -> Unread {
        match error.kind() {
            Some(ErrorKind::BadMetadata) => Unread::Damaged,
            _ => Unread::Refused(error),
        }
    }
}

impl From<io::Error> for Unread {
    fn from(error: io::Error) -> Unread {
        match error.kind() {
            io::ErrorKind::UnexpectedEof => Unread::Damaged,
            _ => Unread::System(error),
        }
    }
}

impl Unread {
    /// Says it of bytes, or of a file.
    fn about(self, path: Option<&Path>) -> TableError {
        let path = path.map(Path::to_path_buf);
        match (self, path) {
            (Unread::Damaged, path) => TableError::Damaged(path),
            (Unread::Refused(error), _) => TableError::Refused(error),
            (Unread::System(error), path) => TableError::File {
                path: path.unwrap_or_default(),
                error,
            },
        }
    }
}

trait Source: Read + Seek {}

impl<S: Read + Seek> Source for S {}

/// Holds a table that is kept, of which only the end is read at first.
struct Kept<'a> {
    source: Box<dyn Source + 'a>,
    path: Option<PathBuf>,
    version: u64,
    footer: TableFooter,
}

impl<'a> Kept<'a> {
    /// Opens a file. What cannot be read from any place, as a pipe, is read at once.
    fn of_file(path: &'a Path) -> Result<Kept<'a>, TableError> {
        let refused = |error| Unread::System(error).about(Some(path));
        let mut file = File::open(path).map_err(refused)?;
        if file.seek(SeekFrom::End(0)).is_ok() {
            return Kept::open(Box::new(file), Some(path));
        }
        let mut bytes = Vec::new();
        file.read_to_end(&mut bytes).map_err(refused)?;
        Kept::open(Box::new(Cursor::new(bytes)), Some(path))
    }

    fn open(mut source: Box<dyn Source + 'a>, path: Option<&Path>) -> Result<Kept<'a>, TableError> {
        let (version, footer) = read_footer(&mut source).map_err(|unread| unread.about(path))?;
        let path = path.map(Path::to_path_buf);
        Ok(Kept {
            source,
            path,
            version,
            footer,
        })
    }

    fn check_limit(&self, bytes: u64, options: LoadOptions) -> Result<(), TableError> {
        let (path, limit) = (self.path.clone(), options.limit);
        match bytes <= limit {
            true => Ok(()),
            false => Err(TableError::OverLimit { path, bytes, limit }),
        }
    }

    fn table(&mut self, options: LoadOptions) -> Result<Table, TableError> {
        self.check_limit(self.footer.kept_bytes(self.footer.columns.iter()), options)?;
        let (mut columns, mut start) = (Vec::new(), head(self.version).len());
        for place in 0..self.footer.columns.len() {
            columns.push(self.column_at(place, start)?);
            start += self.footer.columns[place].part_size();
        }
        Table::of(&columns, self.footer.rows)
    }

    /// Reads the column of a name that there is.
    fn column(&mut self, name: &str) -> Result<(String, Column), TableError> {
        let columns = self.footer.columns.iter();
        let before = columns.take_while(|column| column.name != name);
        let (place, start) = before
            .fold((0, head(self.version).len()), |(place, start), column| {
                (place + 1, start + column.part_size())
            });
        self.column_at(place, start)
    }

    /// Reads the column of a place, whose field begins there, and holds it against what the footer says of it.
    fn column_at(&mut self, place: usize, start: usize) -> Result<(String, Column), TableError> {
        let known = self.footer.columns[place].clone();
        let column = known.column(&mut self.source, start as u64, self.footer.rows);
        let column = column.map_err(|unread| unread.about(self.path.as_deref()))?;
        Ok((known.name, column))
    }
}

impl ColumnFooter {
    fn head(&self) -> Vec<u8> {
        content_head(COLUMN, self.size as u64)
    }

    /// Counts the bytes of the field of the column.
    fn part_size(&self) -> usize {
        self.head().len().saturating_add(self.size)
    }

    /// Reads the column that this describes.
    fn column(&self, source: &mut dyn Source, start: u64, rows: usize) -> Result<Column, Unread> {
        let bytes = read_at(source, start, self.part_size())?;
        let message = bytes
            .strip_prefix(&self.head()[..])
            .ok_or(Unread::Damaged)?;
        let differences = self
            .rows
            .as_ref()
            .and_then(|rows| Some((rows.kind, rows.differences?)));
        let column = match differences {
            Some((kind, form)) => differences::read(message, kind, form, self.kept_items(rows))?,
            None => untyped(message)?,
        };
        let column = self.typed(column)?;
        let form = differences.map(|(_, form)| form);
        let found = ColumnFooter::of(&self.name, &column, self.size, form)?;
        match column.len() == rows && found == *self {
            true => Ok(column),
            false => Err(Unread::Damaged),
        }
    }
}

/// Reads the message of a column, whose logical type is in the footer and not in the message.
pub(super) fn untyped(message: &[u8]) -> Result<Column, Unread> {
    let column = Column::from_bytes(message)?;
    match column.logical_type() {
        None => Ok(column),
        Some(_) => Err(Unread::Damaged),
    }
}

fn read_at(source: &mut dyn Source, start: u64, count: usize) -> Result<Vec<u8>, Unread> {
    let mut bytes = vec![0u8; count];
    source.seek(SeekFrom::Start(start))?;
    source.read_exact(&mut bytes)?;
    Ok(bytes)
}

const TAIL: usize = 9; // bytes at the end, which say how many the footer has

/// Reads the version and the footer, and holds it against the size of the source.
fn read_footer(source: &mut dyn Source) -> Result<(u64, TableFooter), Unread> {
    let size = source.seek(SeekFrom::End(0))?;
    let version = version_of(source, size)?;
    let (message, end) = footer_message(source, size)?;
    let mut fields = Fields::of(&message);
    let rows = fields.number(1)? as usize;
    let (mut columns, mut start) = (Vec::new(), head(version).len());
    while !fields.is_at_end() {
        let column = ColumnFooter::read(fields.content(2)?, version)?;
        start = start.saturating_add(column.part_size());
        columns.push(column);
    }
    let is_named_twice = refuse_twice(columns.iter().map(|column| column.name.as_str())).is_err();
    let is_kept = |column: &ColumnFooter| {
        column
            .rows
            .as_ref()
            .map_or(false, |rows| rows.differences.is_some())
    };
    let least_version = if columns.iter().any(is_kept) { 2 } else { 1 };
    match start as u64 == end && version == least_version && !is_named_twice {
        true => Ok((version, TableFooter { rows, columns })),
        false => Err(Unread::Damaged),
    }
}

fn version_of(source: &mut dyn Source, size: u64) -> Result<u64, Unread> {
    let heads = [1, 2].map(head);
    if size < (heads[0].len() + TAIL) as u64 {
        return Err(Unread::Damaged);
    }
    let found = read_at(source, 0, heads[0].len())?;
    let version = [1, 2]
        .into_iter()
        .zip(heads)
        .find(|(_, head)| *head == found);
    version.map(|(version, _)| version).ok_or(Unread::Damaged)
}

/// Reads the message of the footer, and finds where its field begins.
fn footer_message(source: &mut dyn Source, size: u64) -> Result<(Vec<u8>, u64), Unread> {
    let tail_start = size - TAIL as u64;
    let tail = read_at(source, tail_start, TAIL)?;
    let footer_size = <[u8; 8]>::try_from(&tail[1..]).map(u64::from_le_bytes);
    let footer_size = footer_size.map_err(|_| Unread::Damaged)?;
    let footer_head = content_head(FOOTER, footer_size);
    let before = footer_size.checked_add(footer_head.len() as u64);
    let start = before.and_then(|before| tail_start.checked_sub(before));
    let start = start
        .filter(|_| tail[0] == FOOTER_SIZE)
        .ok_or(Unread::Damaged)?;
    let bytes = read_at(source, start, footer_head.len() + footer_size as usize)?;
    match bytes.strip_prefix(&footer_head[..]) {
        Some(message) => Ok((message.to_vec(), start)),
        None => Err(Unread::Damaged),
    }
}
