//! The integers that columns hold.
use crate::raw::{self, Handle};
use crate::{Fields, Kind};

// hivevigil.h is for machines of 64 bits, where `usize` is `u64` and `isize` is `i64`.
const _: () = assert!(usize::BITS == 64);

/// An integer of 8 to 64 bits, or of the machine's size, which is 64 bits.
pub trait Native: Copy + Default + sealed::Calls {
    /// Its type in columns, without null.
    const KIND: Kind;
}

mod sealed {
    use super::{Fields, Handle};

    /// The calls of one type.
    pub trait Calls: Sized {
        /// # Safety
        /// `out` is a handle, and `fields` is valid.
        unsafe fn make(
            items: &[Self],
            nulls: u8,
            bits: &[u8],
            out: *mut Handle,
            fields: *mut Fields,
        ) -> i32;

        /// # Safety
        /// `column` is a handle, and `fields` is valid.
        unsafe fn read(
            column: *mut Handle,
            start: usize,
            items: &mut [Self],
            fields: *mut Fields,
        ) -> i32;
    }
}

macro_rules! native {
    ($($type:ty, $kind:ident, $make:ident, $read:ident;)*) => { $(
        impl Native for $type {
            const KIND: Kind = Kind::$kind;
        }
        impl sealed::Calls for $type {
            unsafe fn make(items: &[$type], nulls: u8, bits: &[u8], out: *mut Handle, fields: *mut Fields) -> i32 {
                raw::$make(items.as_ptr().cast(), items.len(), nulls, bits.as_ptr(), bits.len(), 0, out, fields)
            }
            unsafe fn read(column: *mut Handle, start: usize, items: &mut [$type], fields: *mut Fields) -> i32 {
                raw::$read(column, start, items.as_mut_ptr().cast(), items.len(), fields)
            }
        }
    )* };
}

native! {
    u8, U8, hv_u8, hv_read_u8;
    u16, U16, hv_u16, hv_read_u16;
    u32, U32, hv_u32, hv_read_u32;
    u64, U64, hv_u64, hv_read_u64;
    i8, I8, hv_i8, hv_read_i8;
    i16, I16, hv_i16, hv_read_i16;
    i32, I32, hv_i32, hv_read_i32;
    i64, I64, hv_i64, hv_read_i64;
    usize, U64, hv_u64, hv_read_u64;
    isize, I64, hv_i64, hv_read_i64;
}
