//! Plain Rust kernels over runs of `Vec`, each in the strongest form that is known here. Where the library must leave
//! nulls blank and neighbours joined, so must they.
mod aggregate;
mod arrays;
mod bytes;
mod compare;
mod decode;
mod encode;
mod encode_by_bits;
mod filter;
mod join;
mod lengths;
mod look;
mod map;
mod shared;
mod take;
mod words;

pub use aggregate::{
    is_constant, is_sorted, least, least_and_greatest, least_and_greatest_by_blocks,
    least_by_blocks, sum, sum_by_blocks, Addend,
};
pub use arrays::{ArrayColumn, NumberType, RunArray};
pub use bytes::{
    message_size, message_size_by_blocks, message_size_by_powers, read, read_by_pairs,
    read_by_words, read_lists, write, write_by_blocks, write_in_one_pass, write_lists,
};
pub use compare::{less_by_ones, less_by_runs, less_by_turns};
pub use decode::{decode, decode_truths, decode_truths_by_ones, decode_truths_by_turns, one_level};
pub use encode::{encode, encode_by_words, encode_texts, encode_truths, encode_truths_by_words};
pub use encode_by_bits::{encode_by_bits, encode_texts_by_bits, encode_truths_by_bits};
pub use filter::{filter, filter_joined, filter_truths, Kept};
pub use look::{look_up, look_up_by_halves, run_of, slice, window, Slice};
pub use map::{cast, fill};
pub use shared::{cast_shared, fill_shared, take_from_shared, SharedRuns, SharedSlice};
pub use take::{
    take, take_by_fours, take_by_ranks, take_in_one_pass, take_truths, take_truths_by_fours,
    take_truths_by_ranks,
};

/// Marks calls that are timed: they stay calls, as those of the library are.
pub use std::hint::black_box;
