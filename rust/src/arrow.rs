//! Columns in and out of Arrow's C data interface and C stream interface.
//!
//! The three structs are those of the specification, field by field, as are `FFI_ArrowSchema`, `FFI_ArrowArray` and
//! `FFI_ArrowArrayStream` of the crate `arrow`: [`std::mem::transmute`] makes one of the other, and moves what it owns.
//! Dropping a struct releases it, once. What `hivevigil_arrow.h` says of formats, of what is refused and of what goes
//! out holds here too. Nothing here is proved.
//!
//! ```
//! use hivevigil::arrow::{ArrowArrayStream, ArrowOptions, ArrowReader};
//! use hivevigil::Column;
//!
//! let runs = Column::new(&[4i64, 4, 4, 7])?.encode()?;
//! let (schema, array) = runs.to_arrow("level")?;
//! assert_eq!((schema.format(), schema.value_format(), array.len()), ("+r", Some("l"), 4));
//! // let array: arrow::ffi::FFI_ArrowArray = unsafe { std::mem::transmute(array) };
//! let back = unsafe { Column::from_arrow(&schema, &array)? };
//! assert!(back.same_rows(&runs)?);
//!
//! let stream = ArrowArrayStream::of_batches(&[("level", &runs, ArrowOptions::default())], 3)?;
//! for batch in ArrowReader::open(stream)? {
//!     println!("{:?}", batch?);
//! }
//! # Ok::<(), hivevigil::arrow::ArrowError>(())
//! ```
mod calls;
mod columns;
mod error;
mod streams;
mod structs;

pub use columns::{concat, ArrowForm, ArrowOptions};
pub use error::{ArrowError, Flaw};
pub use streams::{ArrowReader, Reading};
pub use structs::{ArrowArray, ArrowArrayStream, ArrowSchema};
