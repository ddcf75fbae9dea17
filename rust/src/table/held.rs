//! Tables that the library holds.
use super::groups::Asked;
use super::TableError;
use crate::column::turn_if;
use crate::raw::{self, Handle, TableHandle};
use crate::{ask, Column, Error, Fields};
use std::cell::UnsafeCell;
use std::ops::Range;
use std::ptr;

/// Owns a table of the library, or none yet. Like a column, it is lent to one call at a time, and the owners of the
/// elements of lists are counted by calls that wait for one another.
pub(super) struct Held {
    handle: UnsafeCell<TableHandle>, // a call that reads takes the table out of the handle and puts it back
    may_have_lists: bool,
}

// A table is on the heap of the process, bound to no thread.
unsafe impl Send for Held {}

impl Drop for Held {
    fn drop(&mut self) {
        let _turn = turn_if(self.may_have_lists);
        unsafe { raw::hv_table_free(self.handle.get()) }
    }
}

/// Tables that are made.
impl Held {
    fn none(may_have_lists: bool) -> Held {
        let at = ptr::null_mut();
        Held {
            handle: UnsafeCell::new(TableHandle { at }),
            may_have_lists,
        }
    }

    fn made(
        may_have_lists: bool,
        call: impl FnOnce(*mut TableHandle, *mut Fields) -> i32,
    ) -> Result<Held, Error> {
        let made = Held::none(may_have_lists); // which is dropped after the turn
        let _turn = turn_if(may_have_lists);
        ask(|fields| call(made.handle.get(), fields))?;
        Ok(made)
    }

    /// Makes the table without columns that has this many rows.
    pub(super) fn with_rows(rows: usize) -> Result<Held, Error> {
        Held::made(false, |out, fields| unsafe {
            raw::hv_table_new(rows, out, fields)
        })
    }

    /// Makes a table by a call that is lent this one.
    pub(super) fn part(
        &self,
        call: impl FnOnce(*mut TableHandle, *mut TableHandle, *mut Fields) -> i32,
    ) -> Result<Held, Error> {
        let table = self.handle.get();
        Held::made(self.may_have_lists, |out, fields| call(table, out, fields))
    }

    /// Makes a table by a call that is lent this one and a column.
    pub(super) fn beside(
        &self,
        column: &Column,
        call: impl FnOnce(*mut TableHandle, *mut Handle, *mut TableHandle, *mut Fields) -> i32,
    ) -> Result<Held, Error> {
        let are_lists = self.may_have_lists || column.kind().is_list();
        let (table, column) = (self.handle.get(), column.handle.get());
        Held::made(are_lists, |out, fields| call(table, column, out, fields))
    }

    /// Returns the rows of this table and then those of another one, which is another handle.
    pub(super) fn append(&self, other: &Held) -> Result<Held, Error> {
        let are_lists = self.may_have_lists || other.may_have_lists;
        let (table, other) = (self.handle.get(), other.handle.get());
        Held::made(are_lists, |out, fields| unsafe {
            raw::hv_table_append(table, other, out, fields)
        })
    }

    /// Returns the keys of each group of neighbouring rows that are equal in the columns of these names, and after them
    /// what is asked of its rows.
    pub(super) fn group_by(&self, keys: &[&str], asked: &[Asked]) -> Result<Held, Error> {
        let answers: Vec<&str> = asked.iter().map(|one| one.name).collect();
        let columns: Vec<&str> = asked.iter().map(|one| one.column).collect();
        let folds: Vec<u8> = asked.iter().map(|one| one.fold as u8).collect();
        let texts = |names: &[&str]| Column::texts(names, None);
        let (keys, answers, columns) = (texts(keys)?, texts(&answers)?, texts(&columns)?);
        let (keys, answers) = (keys.handle.get(), answers.handle.get());
        self.part(|table, out, fields| unsafe {
            let (columns, folds, len) = (columns.handle.get(), folds.as_ptr(), folds.len());
            raw::hv_table_group_by(table, keys, answers, columns, folds, len, out, fields)
        })
    }

    pub(super) fn try_clone(&self) -> Result<Held, Error> {
        self.part(|table, out, fields| unsafe { raw::hv_table_clone(table, out, fields) })
    }

    /// Puts a copy of a column in place of that of this name, or after the last; refused as `UnevenRows`.
    pub(super) fn put(&mut self, name: &str, column: &Column) -> Result<(), TableError> {
        self.may_have_lists |= column.kind().is_list();
        let _turn = turn_if(self.may_have_lists);
        let (table, column) = (self.handle.get(), column.handle.get());
        let put = ask(|fields| unsafe {
            raw::hv_table_put(table, name.as_ptr(), name.len(), column, fields)
        });
        put.map_err(TableError::of_put(name))
    }
}

/// What a table has.
impl Held {
    pub(super) fn rows(&self) -> usize {
        unsafe { raw::hv_table_len(self.handle.get()) }
    }

    /// Lists the names of the columns in their order.
    pub(super) fn names(&self) -> Vec<String> {
        self.places().map(|place| self.name(place)).collect()
    }

    /// Copies the columns in their order; they share buffers with those that are held.
    pub(super) fn columns(&self) -> Result<Vec<Column>, Error> {
        self.places().map(|place| self.column(place)).collect()
    }

    /// Finds the place of the column of a name.
    pub(super) fn place(&self, name: &str) -> Option<usize> {
        let mut place = 0;
        let found = ask(|fields| unsafe {
            let (table, text) = (self.handle.get(), name.as_ptr());
            raw::hv_table_place(table, text, name.len(), &mut place, fields)
        });
        found.ok().map(|_| place)
    }

    fn places(&self) -> Range<usize> {
        0..unsafe { raw::hv_table_width(self.handle.get()) }
    }

    fn name(&self, place: usize) -> String {
        let (mut name, mut size) = (vec![0u8; 32], 0);
        while let Err(error) = ask(|fields| unsafe {
            let (room, len) = (name.as_mut_ptr(), name.len());
            raw::hv_table_name(self.handle.get(), place, room, len, &mut size, fields)
        }) {
            name.resize(error.fields.first as usize, 0); // it has as many bytes
        }
        name.truncate(size);
        String::from_utf8(name).expect("names are UTF-8")
    }

    fn column(&self, place: usize) -> Result<Column, Error> {
        let copy = Column::none();
        let _turn = turn_if(self.may_have_lists);
        ask(|fields| unsafe {
            raw::hv_table_column(self.handle.get(), place, copy.handle.get(), fields)
        })?;
        Ok(copy)
    }
}
