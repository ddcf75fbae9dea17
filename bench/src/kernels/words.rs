//! Words of 64 truth values, made and read at once.

/// Puts 64 answers into a word, the first lowest: a byte for each, of which a product gathers eight.
#[inline(always)]
pub fn word_of(answer: impl Fn(usize) -> bool) -> u64 {
    gathered(&std::array::from_fn(|at| u8::from(answer(at))))
}

/// Puts 64 bytes, each 0 or 1, into a word.
#[inline(always)]
pub fn gathered(bytes: &[u8; 64]) -> u64 {
    let eight = |part: &[u8]| {
        let part = u64::from_le_bytes(part.try_into().expect("eight bytes"));
        part.wrapping_mul(0x0102_0408_1020_4080) >> 56
    };
    let parts = bytes.chunks_exact(8).enumerate();
    parts.fold(0, |word, (at, part)| word | eight(part) << (8 * at))
}

/// Writes a byte for each bit of a word, 0 or 1.
#[inline(always)]
pub fn scattered(word: u64) -> [u8; 64] {
    let mut bytes = [0; 64];
    for (part, byte) in bytes.chunks_exact_mut(8).zip(word.to_le_bytes()) {
        let each = u64::from(byte).wrapping_mul(0x0101_0101_0101_0101) & 0x8040_2010_0804_0201;
        let ones = each.wrapping_add(0x7F7F_7F7F_7F7F_7F7F) >> 7 & 0x0101_0101_0101_0101;
        part.copy_from_slice(&ones.to_le_bytes());
    }
    bytes
}

/// Up to 64 items, with another in place of each whose bit is 0, and of those that are missing.
#[inline(always)]
pub fn shown_or<T: Copy>(items: &[T], word: u64, other: T) -> [T; 64] {
    let valid = scattered(word);
    let pick =
        |items: &[T; 64]| std::array::from_fn(|at| if valid[at] == 1 { items[at] } else { other });
    if let Ok(items) = items.try_into() {
        return pick(items);
    }
    let mut padded = [other; 64];
    padded[..items.len()].copy_from_slice(items);
    pick(&padded)
}

/// Counts the bits that are set before each word.
pub fn counts_before(words: &[u64]) -> Vec<u32> {
    let mut count = 0;
    let before = words.iter().map(|word| {
        count += word.count_ones();
        count - word.count_ones()
    });
    before.collect()
}
