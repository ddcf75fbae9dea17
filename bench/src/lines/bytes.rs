//! Columns to bytes, and back.
use super::{same_runs, shape, Number};
use crate::data::{Flat, Lists, Runs};
use crate::kernels::{
    message_size, message_size_by_blocks, message_size_by_powers, read, read_by_pairs,
    read_by_words, read_lists, write, write_by_blocks, write_in_one_pass, write_lists,
};
use crate::library::{Column, Item};
use crate::line::{Bench, Form};
use crate::load::Load;

pub fn lines<T: Number>(bench: &mut Bench, load: &Load) {
    if !bench.wants("bytes") {
        return;
    }
    let (runs, units) = (load.runs(T::of), (load.ends.len(), "run"));
    let column = Column::of_runs(&runs);
    let message = write(&runs, T::MESSAGE);
    let shape_of = |call: &str| shape(load, call, T::NAME);
    let writers: [Form<Vec<u8>>; 3] = [
        ("", &|| write(&runs, T::MESSAGE)),
        ("one pass", &|| write_in_one_pass(&runs, T::MESSAGE)),
        ("blocks", &|| write_by_blocks(&runs, T::MESSAGE)),
    ];
    let ours = || column.message(message.len());
    bench.question(shape_of("bytes, written"), units, ours, &writers, Vec::eq);
    let ours = || column.message(column.message_size());
    let shape = shape_of("bytes, size and written");
    bench.question(shape, units, ours, &writers, Vec::eq);
    let sizes: [Form<usize>; 3] = [
        ("", &|| message_size(&runs)),
        ("powers", &|| message_size_by_powers(&runs)),
        ("blocks", &|| message_size_by_blocks(&runs)),
    ];
    let ours = || column.message_size();
    bench.question(shape_of("bytes, size"), units, ours, &sizes, usize::eq);
    let whole = |read: Option<Runs<T>>| read.expect("the message is whole");
    let readers: [Form<Runs<T>>; 3] = [
        ("", &|| whole(read(&message, T::MESSAGE))),
        ("words", &|| whole(read_by_words(&message, T::MESSAGE))),
        ("pairs", &|| whole(read_by_pairs(&message, T::MESSAGE))),
    ];
    let ours = || Column::of_message(&message);
    bench.question(shape_of("bytes, read"), units, ours, &readers, same_runs);
}

/// Lists as long as the runs of the load, one after the other.
fn lists_of<T: Number>(load: &Load) -> Lists<T> {
    let stops = || load.ends.iter().map(|end| u64::from(*end));
    let starts = || std::iter::once(0).chain(stops());
    let flat = |items| Flat { items, flags: None };
    Lists {
        elements: Flat {
            items: (0..load.rows()).map(|row| T::of(row as u64)).collect(),
            flags: None,
        },
        offsets: flat(starts().take(load.ends.len()).collect()),
        sizes: flat(
            stops()
                .zip(starts())
                .map(|(stop, start)| stop - start)
                .collect(),
        ),
    }
}

fn same_lists<T: Item>(column: &Column, lists: &Lists<T>) -> bool {
    let found = column.read_lists::<T>();
    found.elements.same_rows(&lists.elements)
        && found.offsets.same_rows(&lists.offsets)
        && found.sizes.same_rows(&lists.sizes)
}

/// Columns of lists to bytes, and back.
pub fn lists<T: Number>(bench: &mut Bench, load: &Load) {
    if !bench.wants("bytes") || load.flags.is_some() {
        return;
    }
    let (lists, units) = (lists_of::<T>(load), (load.ends.len(), "list"));
    let (column, message) = (Column::of_lists(&lists), write_lists(&lists, T::MESSAGE));
    bench.line(
        shape(load, "bytes, lists written", T::NAME),
        units,
        || column.message(message.len()),
        || write_lists(&lists, T::MESSAGE),
        |ours, rust| ours == rust,
    );
    bench.line(
        shape(load, "bytes, lists read", T::NAME),
        units,
        || Column::of_message(&message),
        || read_lists::<T>(&message, T::MESSAGE).expect("the message is whole"),
        same_lists,
    );
}
