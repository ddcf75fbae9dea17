//! Which calls are timed, over which columns.
mod aggregates;
mod bytes;
mod calls;
mod codec;
mod encodings;
mod first;
mod growth;
mod kinds;
mod lists;
mod looks;
mod maps;
mod selects;
mod sizes;

pub use first::first;
pub use growth::growth;
pub use sizes::sizes;

use crate::data::Runs;
use crate::kernels::{black_box, Addend};
use crate::library::{Column, Item};
use crate::line::{Bench, Shape};
use crate::load::Load;
use hivevigil::{Kind, Session};

const MEANS: [u64; 3] = [3, 16, 200];

/// Names a type of whole numbers, and another that all its values here are cast to.
pub trait Number: Item + Addend + PartialOrd {
    type Other: Item;
    const NAME: &'static str;
    const OTHER: Kind;
    const SIGNED: bool;
    /// Holds the number of the type in the schema of messages.
    const MESSAGE: u64;
    fn of(number: u64) -> Self;
    fn fits(self) -> bool;
    fn other(self) -> Self::Other;
}

macro_rules! numbers {
    ($($type:ident to $other:ident $kind:ident, $bits:literal, $signed:literal, $message:literal;)*) => { $(
        impl Number for $type {
            type Other = $other;
            const NAME: &'static str = stringify!($type);
            const OTHER: Kind = Kind::$kind;
            const SIGNED: bool = $signed;
            const MESSAGE: u64 = $message;
            fn of(number: u64) -> $type {
                (number & ((1 << $bits) - 1)) as $type
            }
            #[inline(always)]
            fn fits(self) -> bool {
                $other::try_from(self).is_ok()
            }
            #[inline(always)]
            fn other(self) -> $other {
                self as $other
            }
        }
    )* };
}

numbers! {
    u64 to i64 I64, 40, false, 4;
    i32 to i64 I64, 30, true, 7;
    u8 to u32 U32, 8, false, 1;
}

/// Times every line, except growth.
pub fn all(bench: &mut Bench) {
    for mean in MEANS {
        for nulls in [false, true] {
            let load = Load::new(bench.rows, mean, nulls);
            numbers::<u64>(bench, &load);
            numbers::<i32>(bench, &load);
            numbers::<u8>(bench, &load);
            kinds::lines(bench, &load);
            encodings::lines(bench, &load);
        }
    }
    looks::lines(bench);
    calls::lines(bench);
    lists::lines(bench);
    first::lines(bench);
}

fn numbers<T: Number>(bench: &mut Bench, load: &Load) {
    codec::lines::<T>(bench, load);
    bytes::lines::<T>(bench, load);
    bytes::lists::<T>(bench, load);
    aggregates::lines::<T>(bench, load);
    maps::lines::<T>(bench, load);
    selects::lines::<T>(bench, load);
}

/// Returns a call that makes this call a number of times, and answers what the last one does; what
/// the others made is given back.
fn again<A>(times: usize, call: impl Fn() -> A) -> impl Fn() -> A {
    move || {
        (1..times).for_each(|_| _ = black_box(call()));
        call()
    }
}

/// Says what a line of a load is of.
fn shape(load: &Load, call: &str, kind: &'static str) -> Shape {
    let (call, nulls, size) = (
        call.to_string(),
        load.flags.is_some(),
        load.mean.to_string(),
    );
    Shape {
        call,
        kind,
        nulls,
        size,
    }
}

/// Returns whether the library's column has these very runs.
fn same_runs<T: Item>(column: &Column, runs: &Runs<T>) -> bool {
    if column.form() != hivevigil::Form::Runs {
        return column
            .read_flat::<T>()
            .same_rows(&crate::kernels::decode(runs));
    }
    let found = column.read_runs::<T>();
    found.ends == runs.ends && found.values.same_rows(&runs.values)
}

fn session() -> Session {
    Session::initial()
}
