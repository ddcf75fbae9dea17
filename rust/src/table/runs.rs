//! The runs that columns show.
use crate::{ask, raw, Column, Error};

/// Holds the runs that a column shows, as few as possible: where each ends, counted from the first row of the column,
/// and a value for each.
pub(super) struct Shown {
    pub(super) stops: Vec<usize>,
    pub(super) values: Column,
}

impl Shown {
    /// Encodes the rows; refused as `Unsupported` for lists.
    pub(super) fn of(column: &Column) -> Result<Shown, Error> {
        Shown::of_runs(&column.encode_rows()?)
    }

    /// Takes the runs of a run column as they are.
    pub(super) fn of_runs(runs: &Column) -> Result<Shown, Error> {
        let rows = runs.len();
        let stored = match rows {
            0 => 0..0,
            _ => runs.run_of(0)?..runs.run_of(rows - 1)? + 1,
        };
        let mut stops = vec![0u64; stored.len()];
        ask(|fields| unsafe {
            let (first, room) = (stored.start, stops.as_mut_ptr());
            raw::hv_read_ends_u64(runs.handle.get(), first, room, stops.len(), fields)
        })?;
        Ok(Shown {
            stops: stops.into_iter().map(|stop| stop as usize).collect(),
            values: runs.values()?.slice(stored)?,
        })
    }
}

/// Makes runs that end at these rows, of the values at these places of a column.
pub(super) fn runs_of(stops: &[usize], values: &Column) -> Result<Column, Error> {
    let rows = stops.last().copied().unwrap_or(0);
    Column::from_runs(&Column::new(stops)?, values, 0, rows)
}
