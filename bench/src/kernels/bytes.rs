//! Runs and lists of integers as messages of `docs/column.proto`, and back: a pass over lengths of runs, or over lists,
//! and copies.
use super::lengths::{ends_of_pairs, packed_len_by_blocks, push_by_blocks};
use crate::bits::Bits;
use crate::data::{Flat, Lists, Runs};
use std::ptr;

/// Types by their numbers in the schema; ends are stored as u32 here.
const U32: u64 = 3;
const U64: u64 = 4;
const LIST: u64 = 13;
/// Ahead of a field of a number that has this number, and of bytes.
const fn of_number(field: u8) -> u8 {
    field << 3
}
const fn of_bytes(field: u8) -> u8 {
    field << 3 | 2
}
/// Ahead of the elements, offsets and sizes of lists, which are fields 17 to 19.
const PARTS: [[u8; 2]; 3] = [[138, 1], [146, 1], [154, 1]];

fn varint_len(number: u64) -> usize {
    (70 - (number | 1).leading_zeros() as usize) / 7
}

#[inline(always)]
fn push_varint(message: &mut Vec<u8>, mut number: u64) {
    while number >= 128 {
        message.push(number as u8 | 128);
        number >>= 7;
    }
    message.push(number as u8);
}

fn push_numbers(message: &mut Vec<u8>, fields: &[(u8, u64)]) {
    for (field, number) in fields {
        message.push(of_number(*field));
        push_varint(message, *number);
    }
}

fn push_bytes(message: &mut Vec<u8>, field: u8, bytes: &[u8]) {
    message.push(of_bytes(field));
    push_varint(message, bytes.len() as u64);
    message.extend_from_slice(bytes);
}

/// Returns the bytes that are stored, lowest byte first on the machines that this runs on.
fn stored<T>(items: &[T]) -> &[u8] {
    unsafe { std::slice::from_raw_parts(items.as_ptr().cast(), size_of_val(items)) }
}

fn lengths(ends: &[u32]) -> impl Iterator<Item = u32> + '_ {
    let starts = std::iter::once(&0).chain(ends);
    ends.iter().zip(starts).map(|(end, start)| end - start)
}

fn bits_len(flags: &Option<Bits>) -> Option<usize> {
    flags.as_ref().map(|bits| bits.len.div_ceil(8))
}

fn field_len(bytes: usize) -> usize {
    1 + varint_len(bytes as u64) + bytes
}

/// Counts the bytes of the run lengths of these ends, each a varint.
fn packed_len(ends: &[u32]) -> usize {
    lengths(ends).map(|length| varint_len(length.into())).sum()
}

/// Counts the same without a branch: a length has a byte more for each of these powers that it reaches.
fn packed_len_by_powers(ends: &[u32]) -> usize {
    const POWERS: [u32; 4] = [1 << 7, 1 << 14, 1 << 21, 1 << 28];
    const BLOCK: usize = 1 << 16;
    let len = |length: u32| {
        let longer = POWERS.iter().map(|power| u32::from(length >= *power));
        1 + longer.sum::<u32>()
    };
    let block = |(ends, starts): (&[u32], &[u32])| {
        let pairs = ends.iter().zip(starts);
        pairs.map(|(end, start)| len(end - start)).sum::<u32>() as usize
    };
    let Some((first, rest)) = ends.split_first() else {
        return 0;
    };
    let blocks = rest.chunks(BLOCK).zip(ends.chunks(BLOCK));
    len(*first) as usize + blocks.map(block).sum::<usize>()
}

/// Returns the run lengths of these ends as varints, in room for five bytes each.
fn packed(ends: &[u32]) -> Vec<u8> {
    let mut bytes: Vec<u8> = Vec::with_capacity(5 * ends.len());
    let mut room = bytes.as_mut_ptr();
    let mut put = |byte: u8| unsafe {
        room.write(byte);
        room = room.add(1);
    };
    for mut length in lengths(ends) {
        while length >= 128 {
            put(length as u8 | 128);
            length >>= 7;
        }
        put(length as u8);
    }
    unsafe {
        let len = room.offset_from(bytes.as_ptr()) as usize;
        bytes.set_len(len);
    }
    bytes
}

fn flat_len<T>(flat: &Flat<T>) -> usize {
    let head = 6 + 1 + varint_len(flat.items.len() as u64) + 2;
    let bits = bits_len(&flat.flags).map_or(0, field_len);
    head + bits + field_len(size_of_val(&flat.items[..]))
}

fn push_flat<T>(message: &mut Vec<u8>, flat: &Flat<T>, number: u64) {
    let told = if flat.flags.is_some() { 4 } else { 1 };
    let rows = flat.items.len() as u64;
    push_numbers(
        message,
        &[(1, 1), (2, number), (3, 1), (4, rows), (5, told)],
    );
    if let (Some(flags), Some(len)) = (&flat.flags, bits_len(&flat.flags)) {
        push_bytes(message, 6, &flags.bytes()[..len]);
    }
    push_bytes(message, 7, stored(&flat.items));
}

/// Counts the bytes of the message of runs: a pass over their lengths.
#[inline(never)]
pub fn message_size<T>(runs: &Runs<T>) -> usize {
    size_around(runs, packed_len(&runs.ends))
}

#[inline(never)]
pub fn message_size_by_powers<T>(runs: &Runs<T>) -> usize {
    size_around(runs, packed_len_by_powers(&runs.ends))
}

#[inline(never)]
pub fn message_size_by_blocks<T>(runs: &Runs<T>) -> usize {
    size_around(runs, packed_len_by_blocks(&runs.ends))
}

fn size_around<T>(runs: &Runs<T>, packed: usize) -> usize {
    let head = 6 + 1 + varint_len(runs.rows() as u64) + 4;
    head + field_len(packed) + field_len(flat_len(&runs.values))
}

/// Writes the message of runs over a type that has this number in the schema: a pass over their lengths counts how many
/// bytes these have, and another writes them.
pub fn write<T>(runs: &Runs<T>, number: u64) -> Vec<u8> {
    let push_lengths = |message: &mut Vec<u8>| {
        for length in lengths(&runs.ends) {
            push_varint(message, length.into());
        }
    };
    write_around(runs, number, packed_len(&runs.ends), push_lengths)
}

/// Writes the same message in one pass over the lengths: they are written into room of their own, and copied.
pub fn write_in_one_pass<T>(runs: &Runs<T>, number: u64) -> Vec<u8> {
    let packed = packed(&runs.ends);
    let push_lengths = |message: &mut Vec<u8>| message.extend_from_slice(&packed);
    write_around(runs, number, packed.len(), push_lengths)
}

/// Writes the same message, with lengths counted and written 64 at a time.
pub fn write_by_blocks<T>(runs: &Runs<T>, number: u64) -> Vec<u8> {
    let push_lengths = |message: &mut Vec<u8>| push_by_blocks(message, &runs.ends);
    write_around(runs, number, packed_len_by_blocks(&runs.ends), push_lengths)
}

fn write_around<T>(
    runs: &Runs<T>,
    number: u64,
    packed: usize,
    push_lengths: impl FnOnce(&mut Vec<u8>),
) -> Vec<u8> {
    let rows = runs.rows() as u64;
    let inner = flat_len(&runs.values);
    let mut message = Vec::with_capacity(32 + field_len(packed) + field_len(inner));
    push_numbers(&mut message, &[(1, 1), (2, number), (3, 2), (4, rows)]);
    push_numbers(&mut message, &[(8, 0), (9, U32)]);
    message.push(of_bytes(10));
    push_varint(&mut message, packed as u64);
    push_lengths(&mut message);
    message.push(of_bytes(11));
    push_varint(&mut message, inner as u64);
    push_flat(&mut message, &runs.values, number);
    message
}

fn push_part<T>(message: &mut Vec<u8>, key: [u8; 2], part: &Flat<T>, number: u64) {
    message.extend_from_slice(&key);
    push_varint(message, flat_len(part) as u64);
    push_flat(message, part, number);
}

/// Writes the message of lists whose elements are of a type that has this number in the schema.
pub fn write_lists<T>(lists: &Lists<T>, number: u64) -> Vec<u8> {
    let rows = lists.offsets.items.len() as u64;
    let parts = [
        flat_len(&lists.elements),
        flat_len(&lists.offsets),
        flat_len(&lists.sizes),
    ];
    let inner: usize = parts.into_iter().map(|part| 1 + field_len(part)).sum();
    let mut message = Vec::with_capacity(32 + inner);
    push_numbers(
        &mut message,
        &[(1, 1), (2, LIST), (3, 4), (4, rows), (5, 1)],
    );
    push_part(&mut message, PARTS[0], &lists.elements, number);
    push_part(&mut message, PARTS[1], &lists.offsets, U64);
    push_part(&mut message, PARTS[2], &lists.sizes, U64);
    message
}

/// Holds what is left of a message.
struct Reader<'a>(&'a [u8]);

impl<'a> Reader<'a> {
    #[inline(always)]
    fn varint(&mut self) -> Option<u64> {
        let (mut number, mut shift) = (0, 0);
        loop {
            let (first, rest) = self.0.split_first()?;
            self.0 = rest;
            number |= u64::from(first & 127).checked_shl(shift)?;
            if *first < 128 {
                let is_shortest = *first > 0 || shift == 0;
                return is_shortest.then_some(number);
            }
            shift += 7;
        }
    }

    fn number(&mut self, field: u8) -> Option<u64> {
        let (first, rest) = self.0.split_first()?;
        self.0 = rest;
        (*first == of_number(field)).then(|| self.varint())?
    }

    fn bytes(&mut self, field: u8) -> Option<&'a [u8]> {
        self.behind(&[of_bytes(field)])
    }

    /// Returns the bytes after this key and their number.
    fn behind(&mut self, key: &[u8]) -> Option<&'a [u8]> {
        self.0 = self.0.strip_prefix(key)?;
        let len = self.varint()?;
        let (bytes, rest) = self.0.split_at_checked(usize::try_from(len).ok()?)?;
        self.0 = rest;
        Some(bytes)
    }
}

fn copied<T: Copy + Default>(bytes: &[u8], len: usize) -> Option<Vec<T>> {
    (bytes.len() == len.checked_mul(size_of::<T>())?).then_some(())?;
    let mut items = Vec::with_capacity(len);
    unsafe {
        ptr::copy_nonoverlapping(bytes.as_ptr(), items.as_mut_ptr() as *mut u8, bytes.len());
        items.set_len(len);
    }
    Some(items)
}

fn read_bits(bytes: &[u8], len: usize) -> Option<Bits> {
    (bytes.len() == len.div_ceil(8)).then_some(())?;
    let mut bits = Bits::filled(false, len);
    let room = bits.words.as_mut_ptr().cast::<u8>();
    unsafe { ptr::copy_nonoverlapping(bytes.as_ptr(), room, bytes.len()) };
    let stored = bits.words.clone();
    bits.cut();
    (bits.words == stored).then_some(bits)
}

fn read_flat<T: Copy + Default>(message: &[u8], number: u64) -> Option<Flat<T>> {
    let mut reader = Reader(message);
    for (field, told) in [(1, 1), (2, number), (3, 1)] {
        (reader.number(field)? == told).then_some(())?;
    }
    let rows = usize::try_from(reader.number(4)?).ok()?;
    let flags = match reader.number(5)? {
        1 => None,
        4 => Some(read_bits(reader.bytes(6)?, rows)?),
        _ => return None,
    };
    let items = copied(reader.bytes(7)?, rows)?;
    reader.0.is_empty().then_some(Flat { items, flags })
}

/// Returns the ends of run lengths.
fn ends_of(packed: &[u8]) -> Option<Vec<u32>> {
    let mut packed = Reader(packed);
    let (mut ends, mut end) = (Vec::with_capacity(packed.0.len()), 0u64);
    while !packed.0.is_empty() {
        let length = packed.varint()?;
        (length > 0 || ends.is_empty()).then_some(())?;
        end = end.checked_add(length)?;
        ends.push(u32::try_from(end).ok()?);
    }
    Some(ends)
}

/// Returns the same, eight lengths at once where each has one byte.
fn ends_by_words(packed: &[u8]) -> Option<Vec<u32>> {
    let (mut ends, mut end, mut left) = (Vec::with_capacity(packed.len()), 0u64, packed);
    while !left.is_empty() {
        left = match left.split_first_chunk::<8>() {
            Some((lengths, rest)) if are_short(*lengths) => {
                ends.extend(lengths.iter().map(|length| {
                    end += u64::from(*length);
                    end as u32
                }));
                rest
            }
            _ => {
                let (length, rest) = first_length(left)?;
                (length > 0 || ends.is_empty()).then_some(())?;
                end = end.checked_add(length)?;
                ends.push(end as u32);
                rest
            }
        };
        (end <= u64::from(u32::MAX)).then_some(())?;
    }
    Some(ends)
}

/// Returns whether each byte is a length by itself, and none of them 0.
#[inline(always)]
fn are_short(lengths: [u8; 8]) -> bool {
    let word = u64::from_le_bytes(lengths);
    (word | word.wrapping_sub(0x0101_0101_0101_0101)) & 0x8080_8080_8080_8080 == 0
}

#[inline(always)]
fn first_length(packed: &[u8]) -> Option<(u64, &[u8])> {
    match packed {
        [length @ ..=127, rest @ ..] => Some((u64::from(*length), rest)),
        [low, high @ 1..=127, rest @ ..] => {
            Some((u64::from(low & 127) | u64::from(*high) << 7, rest))
        }
        _ => {
            let mut reader = Reader(packed);
            Some((reader.varint()?, reader.0))
        }
    }
}

/// Returns the runs of a message, with ends of u32.
pub fn read<T: Copy + Default>(message: &[u8], number: u64) -> Option<Runs<T>> {
    read_around(message, number, ends_of)
}

pub fn read_by_words<T: Copy + Default>(message: &[u8], number: u64) -> Option<Runs<T>> {
    read_around(message, number, ends_by_words)
}

/// Reads the same where lengths of one byte and two are read without a branch; others are read one by one.
pub fn read_by_pairs<T: Copy + Default>(message: &[u8], number: u64) -> Option<Runs<T>> {
    read_around(message, number, |packed| {
        ends_of_pairs(packed).or_else(|| ends_of(packed))
    })
}

fn read_around<T: Copy + Default>(
    message: &[u8],
    number: u64,
    ends_of: fn(&[u8]) -> Option<Vec<u32>>,
) -> Option<Runs<T>> {
    let mut reader = Reader(message);
    for (field, told) in [(1, 1), (2, number), (3, 2)] {
        (reader.number(field)? == told).then_some(())?;
    }
    let rows = reader.number(4)?;
    (reader.number(8)? == 0 && reader.number(9)? == U32).then_some(())?;
    let ends = ends_of(reader.bytes(10)?)?;
    (u64::from(*ends.last().unwrap_or(&0)) == rows).then_some(())?;
    let values = read_flat::<T>(reader.bytes(11)?, number)?;
    (reader.0.is_empty() && values.items.len() == ends.len()).then_some(Runs { ends, values })
}

/// Returns the lists of a message, none of which is null: each lies within the elements.
pub fn read_lists<T: Copy + Default>(message: &[u8], number: u64) -> Option<Lists<T>> {
    let mut reader = Reader(message);
    for (field, told) in [(1, 1), (2, LIST), (3, 4)] {
        (reader.number(field)? == told).then_some(())?;
    }
    let rows = usize::try_from(reader.number(4)?).ok()?;
    (reader.number(5)? == 1).then_some(())?;
    let elements = read_flat::<T>(reader.behind(&PARTS[0])?, number)?;
    let offsets = read_flat::<u64>(reader.behind(&PARTS[1])?, U64)?;
    let sizes = read_flat::<u64>(reader.behind(&PARTS[2])?, U64)?;
    (reader.0.is_empty() && offsets.items.len() == rows && sizes.items.len() == rows)
        .then_some(())?;
    let count = elements.items.len() as u64;
    let lies_within = |(start, size): (&u64, &u64)| *start <= count && *size <= count - *start;
    let all_lie_within = offsets.items.iter().zip(&sizes.items).all(lies_within);
    all_lie_within.then_some(Lists {
        elements,
        offsets,
        sizes,
    })
}
