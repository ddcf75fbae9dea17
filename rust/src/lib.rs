//! Run-end encoded columns in safe Rust, over `libhivevigil.a`: each call meets what `hivevigil.h` says that a
//! caller owes. Nothing here is proved.
//!
//! ```
//! use hivevigil::{Column, Value};
//!
//! let rows = [Some(4i64), Some(4), None, None, Some(9)];
//! let runs = Column::try_from(&rows)?.encode()?;
//! assert_eq!(runs.sum()?.total, Value::Signed(17));
//! for run in runs.runs()? {
//!     let run = run?;
//!     println!("rows {:?}: {}", run.rows, run.value);
//! }
//! assert_eq!(runs.at(2)?, Value::Null);
//! assert_eq!(runs.decode()?.options::<i64>()?, rows);
//! # Ok::<(), hivevigil::Error>(())
//! ```
//!
//! [`Table`] has several named columns of one number of rows, and keeps them in files that Python reads and writes too.
#![warn(missing_docs)]

pub mod arrow;
mod builder;
mod column;
mod commands;
mod convert;
mod decimal;
mod error;
mod fits;
mod floats;
mod groups;
mod iterate;
mod kind;
mod native;
mod pairs;
mod parts;
mod questions;
mod raw;
mod same;
mod scales;
mod show;
mod sorts;
mod table;
mod value;

pub use builder::Builder;
pub use column::Column;
pub use convert::Row;
pub use decimal::Decimal;
pub use error::{Error, ErrorKind, Fields};
pub use floats::{Float, FloatOrder, Floats};
pub use iterate::{Rows, Run, Runs};
pub use kind::{Form, Kind};
pub use native::Native;
pub use parts::SplitBy;
pub use table::{
    ColumnFooter, Columns, Difference, Groups, LoadOptions, Order, RowsFooter, SaveOptions, Table,
    TableError, TableFooter,
};
pub use value::{Fold, Operator, Sum, SumParts, Value};

/// Which kernels are registered, and the numbers by which they choose: form and cost, never an answer.
#[repr(C)]
#[derive(Clone, Copy, Debug, Default, PartialEq, Eq)]
pub struct Session {
    /// From this many runs on a decoder of booleans first writes all rows as those of most runs.
    pub prefill_runs: usize,
    /// A filter that keeps fewer rows than this takes them one by one.
    pub min_run_filter_rows: usize,
    /// A filter of more runs than this for each row that it keeps takes its rows one by one.
    pub filter_factor: usize,
    /// A take by sorted indices merges them with the ends up to this many runs for each index.
    pub sorted_runs_per_index: usize,
    /// A take makes a bit for each row, set where a run ends, up to this many rows for each index.
    pub table_len_per_index: usize,
    /// A take by indices that are not sorted sorts them from this many runs on.
    pub unsorted_min_runs: usize,
    /// It does so up to this many runs for each index.
    pub unsorted_runs_per_index: usize,
    /// A flag for each kernel, in the order of `hivevigil.h`.
    pub kernels: [u8; 12],
}

impl Session {
    /// Registers every kernel, with the numbers of the crate that is ported.
    pub fn initial() -> Session {
        let mut session = Session::default();
        unsafe { raw::hv_session_initial(&mut session) };
        session
    }
}

pub(crate) fn ask(call: impl FnOnce(*mut Fields) -> i32) -> Result<(), Error> {
    let mut fields = Fields::default();
    match call(&mut fields) {
        0 => Ok(()),
        number => Err(Error::new(number, fields)),
    }
}
