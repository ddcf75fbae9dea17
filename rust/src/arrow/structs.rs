//! The structs of the two interfaces, which release what they own where they are dropped.
use super::calls;
use std::ffi::{c_char, c_int, c_void, CStr};
use std::fmt;
use std::mem;
use std::ptr;

/// Describes the type of an array and of what is in it.
#[repr(C)]
pub struct ArrowSchema {
    format: *const c_char,
    name: *const c_char,
    metadata: *const c_char,
    flags: i64,
    n_children: i64,
    children: *mut *mut ArrowSchema,
    dictionary: *mut ArrowSchema,
    release: Option<unsafe extern "C" fn(*mut ArrowSchema)>,
    private_data: *mut c_void,
}

/// Holds the rows of an array, in buffers of its producer's.
#[repr(C)]
pub struct ArrowArray {
    length: i64,
    null_count: i64,
    offset: i64,
    n_buffers: i64,
    n_children: i64,
    buffers: *mut *const c_void,
    children: *mut *mut ArrowArray,
    dictionary: *mut ArrowArray,
    release: Option<unsafe extern "C" fn(*mut ArrowArray)>,
    private_data: *mut c_void,
}

/// Gives arrays of one schema, one after the other.
#[repr(C)]
pub struct ArrowArrayStream {
    pub(super) get_schema:
        Option<unsafe extern "C" fn(*mut ArrowArrayStream, *mut ArrowSchema) -> c_int>,
    pub(super) get_next:
        Option<unsafe extern "C" fn(*mut ArrowArrayStream, *mut ArrowArray) -> c_int>,
    pub(super) get_last_error: Option<unsafe extern "C" fn(*mut ArrowArrayStream) -> *const c_char>,
    release: Option<unsafe extern "C" fn(*mut ArrowArrayStream)>,
    private_data: *mut c_void,
}

macro_rules! owned {
    ($($name:ident;)*) => { $(
        // whoever hands one over says that it may be released on any thread
        unsafe impl Send for $name {}

        impl Drop for $name {
            fn drop(&mut self) {
                if let Some(release) = self.release {
                    unsafe { release(self) }
                }
            }
        }

        impl $name {
            /// Makes a struct that owns nothing, as one that was released: room for a producer to fill.
            pub fn empty() -> $name {
                // all fields are numbers, raw pointers and optional functions, of which zero is none
                unsafe { mem::zeroed() }
            }

            /// Moves the struct out of a producer's, which is marked as released.
            ///
            /// # Safety
            /// `from` is aligned, and points to a struct that is released or as Arrow's specification wants it, with a
            /// release callback that does not unwind and may be called on any thread.
            pub unsafe fn from_raw(from: *mut $name) -> $name {
                let moved = ptr::read(from);
                ptr::addr_of_mut!((*from).release).write(None);
                moved
            }

            /// Moves the struct to a consumer's, without releasing what is there.
            ///
            /// # Safety
            /// `to` is aligned, and may be written.
            pub unsafe fn into_raw(self, to: *mut $name) {
                ptr::write(to, self);
            }

            /// Returns whether the struct owns nothing.
            pub fn is_released(&self) -> bool {
                self.release.is_none()
            }
        }
    )* };
}

owned! {
    ArrowSchema;
    ArrowArray;
    ArrowArrayStream;
}

/// Reads a text of C; empty where it is null or not UTF-8.
fn text<'a>(from: *const c_char) -> &'a str {
    if from.is_null() {
        return "";
    }
    unsafe { CStr::from_ptr(from) }.to_str().unwrap_or_default()
}

/// Looks up one of the structs that `at` points to, of which there are `count`.
fn child<'a, T>(at: *mut *mut T, count: i64, place: usize) -> Option<&'a T> {
    let is_there = !at.is_null() && i64::try_from(place).map_or(false, |place| place < count);
    is_there.then(|| unsafe { (*at.add(place)).as_ref() })?
}

impl ArrowSchema {
    /// Returns the format, as `i` or `+r`; empty where there is none.
    pub fn format(&self) -> &str {
        text(self.format)
    }

    /// Returns the format of the values below runs and dictionaries, as `tsu:UTC`; `None` of a schema that has none.
    pub fn value_format(&self) -> Option<&str> {
        let found = unsafe { calls::hv_value_format(self) };
        (!found.is_null()).then(|| text(found))
    }

    /// Returns the name; empty where there is none.
    pub fn name(&self) -> &str {
        text(self.name)
    }

    /// Returns whether rows may be null.
    pub fn is_nullable(&self) -> bool {
        self.flags & 2 != 0
    }

    /// Returns a child, as a column of a batch.
    pub fn child(&self, place: usize) -> Option<&ArrowSchema> {
        child(self.children, self.n_children, place)
    }

    /// Counts the children.
    pub fn child_count(&self) -> usize {
        usize::try_from(self.n_children).unwrap_or(0)
    }

    /// Returns the type of the values of a dictionary, where the array has the codes.
    pub fn dictionary(&self) -> Option<&ArrowSchema> {
        unsafe { self.dictionary.as_ref() }
    }

    /// Returns whether there is a dictionary, here or below.
    pub(super) fn has_dictionary(&self) -> bool {
        self.dictionary().is_some()
            || (0..self.child_count())
                .any(|place| self.child(place).map_or(false, ArrowSchema::has_dictionary))
    }
}

impl ArrowArray {
    /// Counts the rows.
    pub fn len(&self) -> usize {
        usize::try_from(self.length).unwrap_or(0)
    }

    /// Returns whether it has 0 rows.
    pub fn is_empty(&self) -> bool {
        self.len() == 0
    }

    /// Counts the nulls; `None` where the producer did not.
    pub fn null_count(&self) -> Option<usize> {
        usize::try_from(self.null_count).ok()
    }

    /// Returns a child, as a column of a batch.
    pub fn child(&self, place: usize) -> Option<&ArrowArray> {
        child(self.children, self.n_children, place)
    }
}

impl fmt::Debug for ArrowSchema {
    fn fmt(&self, formatter: &mut fmt::Formatter<'_>) -> fmt::Result {
        let (format, name, children) = (self.format(), self.name(), self.child_count());
        let mut shown = formatter.debug_struct("ArrowSchema");
        shown.field("format", &format).field("name", &name);
        shown.field("children", &children).finish_non_exhaustive()
    }
}

impl fmt::Debug for ArrowArray {
    fn fmt(&self, formatter: &mut fmt::Formatter<'_>) -> fmt::Result {
        let mut shown = formatter.debug_struct("ArrowArray");
        shown.field("rows", &self.len()).finish_non_exhaustive()
    }
}

impl fmt::Debug for ArrowArrayStream {
    fn fmt(&self, formatter: &mut fmt::Formatter<'_>) -> fmt::Result {
        let mut shown = formatter.debug_struct("ArrowArrayStream");
        shown
            .field("released", &self.is_released())
            .finish_non_exhaustive()
    }
}
