//! Messages of Protocol Buffers in the one spelling that docs/BYTES.md asks for: fields in their order, numbers as the
//! shortest varints, and nothing else.

const VARINT: u64 = 0; // how a field is written
const SIZED: u64 = 2;
const MOST_BYTES: usize = 10; // of a varint of 64 bits

/// Says that bytes are not such a message.
#[derive(Clone, Copy, Debug, PartialEq, Eq)]
pub(super) struct Damaged;

/// Writes a field that has a number.
pub(super) fn put_number(out: &mut Vec<u8>, field: u64, number: u64) {
    put_varint(out, field * 8 + VARINT);
    put_varint(out, number);
}

/// Writes a field that has bytes.
pub(super) fn put_content(out: &mut Vec<u8>, field: u64, content: &[u8]) {
    out.extend(content_head(field, content.len() as u64));
    out.extend_from_slice(content);
}

/// Returns what comes in front of the content of a field of this many bytes.
pub(super) fn content_head(field: u64, size: u64) -> Vec<u8> {
    let mut head = Vec::new();
    put_varint(&mut head, field * 8 + SIZED);
    put_varint(&mut head, size);
    head
}

/// Writes a number in groups of 7 bits, the lowest first.
pub(super) fn put_varint(out: &mut Vec<u8>, mut number: u64) {
    while number > 127 {
        out.push((number as u8 & 127) | 128);
        number >>= 7;
    }
    out.push(number as u8);
}

/// Reads the fields of a message in turn. Each call is refused where the next field is another.
pub(super) struct Fields<'a> {
    left: &'a [u8],
}

impl<'a> Fields<'a> {
    pub(super) fn of(message: &'a [u8]) -> Fields<'a> {
        Fields { left: message }
    }

    /// Reads the number of this field.
    pub(super) fn number(&mut self, field: u64) -> Result<u64, Damaged> {
        self.expect(field * 8 + VARINT)?;
        self.varint()
    }

    /// Reads the bytes of this field.
    pub(super) fn content(&mut self, field: u64) -> Result<&'a [u8], Damaged> {
        self.expect(field * 8 + SIZED)?;
        let size = self.varint()?;
        let (content, left) = match usize::try_from(size) {
            Ok(size) if size <= self.left.len() => self.left.split_at(size),
            _ => return Err(Damaged),
        };
        self.left = left;
        Ok(content)
    }

    /// Reads the text of this field.
    pub(super) fn text(&mut self, field: u64) -> Result<&'a str, Damaged> {
        std::str::from_utf8(self.content(field)?).map_err(|_| Damaged)
    }

    pub(super) fn is_at_end(&self) -> bool {
        self.left.is_empty()
    }

    fn expect(&mut self, key: u64) -> Result<(), Damaged> {
        (self.varint()? == key).then_some(()).ok_or(Damaged)
    }

    /// Reads a varint, which has no longer spelling than it needs.
    fn varint(&mut self) -> Result<u64, Damaged> {
        let mut number = 0u128;
        for (place, byte) in self.left.iter().enumerate().take(MOST_BYTES) {
            number |= u128::from(byte & 127) << (7 * place);
            if *byte < 128 {
                self.left = &self.left[place + 1..];
                let is_shortest = place == 0 || *byte > 0;
                let number = u64::try_from(number).ok().filter(|_| is_shortest);
                return number.ok_or(Damaged);
            }
        }
        Err(Damaged)
    }
}

#[cfg(test)]
mod tests {
    use super::*;

    fn varint(number: u64) -> Vec<u8> {
        let mut out = Vec::new();
        put_varint(&mut out, number);
        out
    }

    #[test]
    fn numbers_have_one_spelling() {
        assert_eq!(varint(0), [0]);
        assert_eq!(varint(127), [127]);
        assert_eq!(varint(300), [0xac, 0x02]);
        assert_eq!(varint(1 << 60).len(), 9);
        assert_eq!(
            varint(u64::MAX),
            [255, 255, 255, 255, 255, 255, 255, 255, 255, 1]
        );
        for number in [0, 1, 127, 128, 16_383, 16_384, u64::MAX >> 1, u64::MAX] {
            let message = [vec![8], varint(number)].concat();
            let mut fields = Fields::of(&message);
            assert_eq!((fields.number(1), fields.is_at_end()), (Ok(number), true));
        }
    }

    #[test]
    fn other_spellings_are_refused() {
        let longer: [&[u8]; 6] = [
            &[8, 0x80, 0],
            &[8, 0xac, 0x82, 0],
            &[8, 255, 255, 255, 255, 255, 255, 255, 255, 255, 2],
            &[8, 255, 255, 255, 255, 255, 255, 255, 255, 255, 129, 0],
            &[8, 0x80],
            &[0x88, 0, 1],
        ];
        for message in longer {
            assert_eq!(Fields::of(message).number(1), Err(Damaged), "{message:?}");
        }
        assert_eq!(Fields::of(&[16, 1]).number(1), Err(Damaged));
        assert_eq!(Fields::of(&[]).number(1), Err(Damaged));
    }

    #[test]
    fn contents_are_within_their_message() {
        let mut fields = Fields::of(&[0x0a, 2, b'a', b'b', 0x12, 0]);
        assert_eq!(fields.content(1), Ok(&b"ab"[..]));
        assert_eq!((fields.text(2), fields.is_at_end()), (Ok(""), true));
        assert_eq!(Fields::of(&[0x0a, 2, b'a']).content(1), Err(Damaged));
        assert_eq!(Fields::of(&[0x0a, 1, 0xff]).text(1), Err(Damaged));
        let far = [&[0x0a][..], &[255; 9], &[1]].concat();
        assert_eq!(Fields::of(&far).content(1), Err(Damaged));
    }
}
