//! Run lengths as varints, 64 at a time.

/// Lengths below these have one byte, and two.
const ONE: u32 = 1 << 7;
const TWO: u32 = 1 << 14;
const BLOCK: usize = 64;

/// Calls with the lengths of 64 runs after another, how many there are, and the greatest of them; after the last they
/// are 0.
#[inline(always)]
fn for_each_block(ends: &[u32], mut visit: impl FnMut(&[u32; BLOCK], usize, u32)) {
    let mut before = 0;
    for part in ends.chunks(BLOCK) {
        let mut lengths = [0; BLOCK];
        if let Ok(part) = <&[u32; BLOCK]>::try_from(part) {
            lengths =
                std::array::from_fn(|at| part[at] - if at == 0 { before } else { part[at - 1] });
        } else {
            for (length, end) in lengths.iter_mut().zip(part) {
                *length = end - before;
                before = *end;
            }
        }
        before = part[part.len() - 1];
        let longest = lengths.iter().fold(0, |most, length| most.max(*length));
        visit(&lengths, part.len(), longest);
    }
}

fn varint_len(length: u32) -> usize {
    (38 - (length | 1).leading_zeros() as usize) / 7
}

/// Counts the bytes of the run lengths of these ends: the longest of 64 says how they are counted.
pub fn packed_len_by_blocks(ends: &[u32]) -> usize {
    let mut bytes = 0;
    for_each_block(ends, |lengths, count, longest| {
        bytes += if longest < ONE {
            count
        } else if longest < TWO {
            let longer = lengths.iter().map(|length| u32::from(*length >= ONE));
            count + longer.sum::<u32>() as usize
        } else {
            let each = lengths[..count].iter();
            each.map(|length| varint_len(*length)).sum()
        };
    });
    bytes
}

/// Appends these lengths: of 64 that are below 128 each is its byte, and of those that have two bytes at most both are
/// written, and the next length writes over the second where there is none.
pub fn push_by_blocks(message: &mut Vec<u8>, ends: &[u32]) {
    for_each_block(ends, |lengths, count, longest| {
        if longest < ONE {
            let bytes = lengths.map(|length| length as u8);
            message.extend_from_slice(&bytes[..count]);
        } else if longest < TWO {
            let (mut bytes, mut at) = ([0; 2 * BLOCK], 0);
            for length in &lengths[..count] {
                let longer = u8::from(*length >= ONE);
                bytes[at] = *length as u8 & 127 | longer << 7;
                bytes[(at + 1) % (2 * BLOCK)] = (*length >> 7) as u8;
                at += 1 + usize::from(longer);
            }
            message.extend_from_slice(&bytes[..at]);
        } else {
            for length in &lengths[..count] {
                let mut left = *length;
                while left >= ONE {
                    message.push(left as u8 | 128);
                    left >>= 7;
                }
                message.push(left as u8);
            }
        }
    });
}

/// Reads ends of run lengths of one byte and of two, without a branch on which: of eight bytes those that end a length say
/// where the next one begins. `None` where a length is longer, is 0 past the first, is not written shortest, or is cut.
pub fn ends_of_pairs(packed: &[u8]) -> Option<Vec<u32>> {
    let mut ends = Vec::with_capacity(packed.len());
    let (mut left, mut end, mut good) = (packed, 0u64, true);
    while let Some((word, _)) = left.split_first_chunk::<8>() {
        let (mut word, mut taken) = (u64::from_le_bytes(*word), 0);
        if word & 0x8080_8080_8080_8080 == 0 {
            good &= word_of_zeros(word) == 0 || ends.is_empty();
            ends.extend(word.to_le_bytes().map(|length| {
                end += u64::from(length);
                end as u32
            }));
            taken = 8;
        } else {
            for _ in 0..4 {
                let longer = word >> 7 & 1;
                let high = (word >> 8 & 255) * longer;
                let length = word & 127 | (high & 127) << 7;
                good &= high < 128 && (high > 0 || longer == 0);
                good &= length > 0 || ends.is_empty();
                end += length;
                ends.push(end as u32);
                word >>= 8 + 8 * longer;
                taken += 1 + longer as usize;
            }
        }
        left = &left[taken..];
    }
    while let Some((low, rest)) = left.split_first() {
        let longer = *low >= 128;
        let high = if longer { *rest.first()? } else { 0 };
        let length = u64::from(low & 127) | u64::from(high) << 7;
        good &= high < 128 && (high > 0 || !longer) && (length > 0 || ends.is_empty());
        end += length;
        ends.push(end as u32);
        left = &rest[usize::from(longer)..];
    }
    (good && end <= u64::from(u32::MAX)).then_some(ends)
}

/// Marks the bytes of a word that are 0, where none is above 127.
#[inline(always)]
fn word_of_zeros(word: u64) -> u64 {
    word.wrapping_sub(0x0101_0101_0101_0101) & !word & 0x8080_8080_8080_8080
}
