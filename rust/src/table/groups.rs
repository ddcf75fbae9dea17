//! What is asked of the groups of a table: runs of neighbouring rows that are equal in some columns.
use super::held::Held;
use super::{Table, TableError};
use crate::Fold;

/// Holds the rows of a table by runs of neighbours that are equal in all columns of keys, null equal to null: rows that
/// are sorted by the keys come in one group for each. Each call returns a table of a row for each group, all flat: the
/// keys, and the answer, null where the group has no row that is not null (0 for a count).
///
/// ```
/// use hivevigil::{Column, Fold, Table};
/// let stations = Column::try_from(["north", "north", "south"])?;
/// let levels = Column::try_from([Some(900), None, Some(40)])?;
/// let table = Table::try_from_iter([("station", stations), ("level", levels)])?;
/// let groups = table.group_by(["station"])?;
/// assert_eq!(groups.count("level")?["level"].options::<u64>()?, [Some(1), Some(1)]);
/// let found = groups.agg([("rows", "level", Fold::Rows), ("highest", "level", Fold::Greatest)])?;
/// assert_eq!(found["rows"].options::<u64>()?, [Some(2), Some(1)]);
/// assert_eq!(found["highest"].options::<i32>()?, [Some(900), Some(40)]);
/// # Ok::<(), hivevigil::TableError>(())
/// ```
pub struct Groups<'a> {
    table: &'a Table,
    keys: Vec<String>,
    len: usize,
}

/// Asks for one answer of each group.
pub(super) struct Asked<'n> {
    pub(super) name: &'n str,
    pub(super) column: &'n str,
    pub(super) fold: Fold,
}

/// Groups of neighbouring rows.
impl Table {
    /// Groups the rows by the columns of these names. Refused as `NoKeys`, `RepeatedName` and `NoSuchColumn`, and as
    /// `Unsupported` for lists.
    pub fn group_by(
        &self,
        names: impl IntoIterator<Item = impl AsRef<str>>,
    ) -> Result<Groups<'_>, TableError> {
        let keys = names.into_iter().map(|name| name.as_ref().to_string());
        let keys: Vec<String> = keys.collect();
        let len = self.grouped(&keys, &[])?.rows();
        Ok(Groups {
            table: self,
            keys,
            len,
        })
    }

    /// Returns the keys of each group, and what is asked of its rows.
    fn grouped(&self, keys: &[String], asked: &[Asked]) -> Result<Held, TableError> {
        let keys: Vec<&str> = keys.iter().map(String::as_str).collect();
        let made = self.held.group_by(&keys, asked);
        made.map_err(|error| self.refusal_of_groups(error, &keys, asked))
    }

    /// Writes the rows of each column out in a flat form.
    fn decoded(&self) -> Result<Table, TableError> {
        let columns = self.iter().map(|(name, column)| {
            let flat = column.decode().map_err(TableError::of(name))?;
            Ok((name.to_string(), flat))
        });
        Table::of(
            &columns.collect::<Result<Vec<_>, TableError>>()?,
            self.rows(),
        )
    }
}

impl Groups<'_> {
    /// Counts the groups.
    pub fn len(&self) -> usize {
        self.len
    }

    /// Returns whether there is none.
    pub fn is_empty(&self) -> bool {
        self.len() == 0
    }

    /// Counts the rows of each group, in `u64`, under the name `size`.
    pub fn size(&self) -> Result<Table, TableError> {
        self.agg([("size", &self.keys[0][..], Fold::Rows)])
    }

    /// Counts the rows of a column that are not null in each group, in `u64`, under the name of the column. Refused as
    /// `NoSuchColumn` and as `RepeatedName` for a column of keys, as all that follow, which refuse lists as `Unsupported`.
    pub fn count(&self, name: &str) -> Result<Table, TableError> {
        self.agg([(name, name, Fold::Count)])
    }

    /// Sums the rows that are not null: integers in 64 bits, decimals in 38 digits, floats exactly and rounded once, in
    /// 64 bits. Durations are summed as such, and integers under a format that nobody serves as integers. Refused as
    /// `CastOutOfRange` where a sum does not fit, and as `Unsupported` for dates, other times, and all other rows.
    pub fn sum(&self, name: &str) -> Result<Table, TableError> {
        self.agg([(name, name, Fold::Sum)])
    }

    /// Finds the least row of each group, where NaN is left out.
    pub fn min(&self, name: &str) -> Result<Table, TableError> {
        self.agg([(name, name, Fold::Least)])
    }

    /// Finds the greatest row of each group, where NaN is left out.
    pub fn max(&self, name: &str) -> Result<Table, TableError> {
        self.agg([(name, name, Fold::Greatest)])
    }

    /// Finds the first row of each group that is not null.
    pub fn first(&self, name: &str) -> Result<Table, TableError> {
        self.agg([(name, name, Fold::First)])
    }

    /// Finds the last row of each group that is not null.
    pub fn last(&self, name: &str) -> Result<Table, TableError> {
        self.agg([(name, name, Fold::Last)])
    }

    /// Answers several questions at once: for each a name, the column that is asked, and what it is asked. Refused as
    /// `RepeatedName` for a name that a key or an earlier answer has, then for the first column that is not there or is
    /// not asked this, and then for the first sum that does not fit.
    pub fn agg<'n>(
        &self,
        answers: impl IntoIterator<Item = (&'n str, &'n str, Fold)>,
    ) -> Result<Table, TableError> {
        let asked = answers
            .into_iter()
            .map(|(name, column, fold)| Asked { name, column, fold });
        let asked: Vec<Asked> = asked.collect();
        Table::holding(self.table.grouped(&self.keys, &asked)?)?.decoded()
    }
}
