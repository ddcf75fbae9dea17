//! Rows in order by some of the columns.
use super::{Table, TableError};
use crate::raw;

/// Says by which columns rows are sorted: first by that of `by`, then by each of `then`, each from the least row to the
/// greatest, where null is below all else.
///
/// ```
/// use hivevigil::{Column, Order, Table};
/// let stations = Column::try_from(["south", "north", "south"])?;
/// let levels = Column::try_from([Some(40), None, Some(41)])?;
/// let table = Table::try_from_iter([("station", stations), ("level", levels)])?;
/// let order = Order::by("level").descending().nulls_last().then("station");
/// let levels = table.sort_by(&order)?.column("level")?.decode()?;
/// assert_eq!(levels.options::<i32>()?, [Some(41), Some(40), None]);
/// # Ok::<(), hivevigil::TableError>(())
/// ```
#[derive(Clone, Debug, PartialEq, Eq)]
pub struct Order {
    keys: Vec<Key>,
}

/// Says how one column orders rows.
#[derive(Clone, Debug, PartialEq, Eq)]
struct Key {
    name: String,
    flags: u8,
}

const DESCENDING: u8 = 1; // as in hivevigil_tables.h
const NULLS_LAST: u8 = 2;

impl Order {
    /// Sorts by the column of a name.
    pub fn by(name: impl Into<String>) -> Order {
        Order { keys: Vec::new() }.then(name)
    }

    /// Sorts rows that are equal so far by the column of a name.
    pub fn then(mut self, name: impl Into<String>) -> Order {
        self.keys.push(Key {
            name: name.into(),
            flags: 0,
        });
        self
    }

    /// Puts the greatest row of the column that was named last first. Nulls stay where they are.
    pub fn descending(self) -> Order {
        self.with_last(DESCENDING)
    }

    /// Puts the nulls of the column that was named last after all else, in either order.
    pub fn nulls_last(self) -> Order {
        self.with_last(NULLS_LAST)
    }

    /// Sets a flag of the column that was named last.
    fn with_last(mut self, flag: u8) -> Order {
        if let Some(last) = self.keys.last_mut() {
            last.flags |= flag;
        }
        self
    }
}

/// Tables in order.
impl Table {
    /// Returns the rows in order by the columns of these names, of which the first counts most: null first, numbers by
    /// value, false before true, texts and bytes by their bytes, floats in their total order. Rows that are equal in
    /// all of them stay in their order. Refused as `NoKeys`, `NoSuchColumn` and `RepeatedName`, and as `Unsupported`
    /// for lists.
    ///
    /// ```
    /// use hivevigil::{Column, Table};
    /// let stations = Column::try_from(["south", "north", "south"])?;
    /// let levels = Column::new(&[41i32, 900, 40])?;
    /// let table = Table::try_from_iter([("station", stations), ("level", levels)])?;
    /// assert_eq!(table.sort(["station", "level"])?["level"].numbers::<i32>()?, [900, 40, 41]);
    /// # Ok::<(), hivevigil::TableError>(())
    /// ```
    pub fn sort(
        &self,
        names: impl IntoIterator<Item = impl AsRef<str>>,
    ) -> Result<Table, TableError> {
        let keys = Vec::new();
        let names = names.into_iter();
        self.sort_by(&names.fold(Order { keys }, |order, name| order.then(name.as_ref())))
    }

    /// Returns the rows in an order; refused as [`Table::sort`].
    pub fn sort_by(&self, order: &Order) -> Result<Table, TableError> {
        let keys = order.keys.iter();
        let (names, flags): (Vec<&str>, Vec<u8>) =
            keys.map(|key| (key.name.as_str(), key.flags)).unzip();
        self.by_names(&names, |table, names, out, fields| unsafe {
            raw::hv_table_sort(table, names, flags.as_ptr(), flags.len(), out, fields)
        })
    }
}
