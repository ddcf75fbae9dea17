//! Rows, and the types of arrays.

/// Holds a row; decimals and times are their integers.
#[derive(Clone, Debug, PartialEq)]
pub enum Cell {
    Null,
    Number(i128),
    Truth(bool),
    Bytes(Vec<u8>),
    List(Vec<Cell>),
}

/// Names the type of an array, by its format.
#[derive(Clone, Debug)]
pub enum Type {
    /// Names integers, times and floats by their bits, and their bytes.
    Number(String, usize),
    Truth,
    /// Names texts or bytes, and the bytes of an offset.
    Text(&'static str, usize),
    View(&'static str),
    Fixed(usize),
    /// Names lists, and the bytes of an offset.
    List(usize, Box<Type>),
    /// Names runs, and the bytes of an end.
    Runs(usize, Box<Type>),
    /// Names codes of a format, and their bytes, over values.
    Coded(&'static str, usize, Box<Type>),
}

impl Type {
    pub fn format(&self) -> String {
        match self {
            Type::Number(format, _) => format.clone(),
            Type::Truth => "b".into(),
            Type::Text(format, _) | Type::View(format) | Type::Coded(format, _, _) => {
                format.to_string()
            }
            Type::Fixed(width) => format!("w:{width}"),
            Type::List(width, _) => if *width == 4 { "+l" } else { "+L" }.into(),
            Type::Runs(..) => "+r".into(),
        }
    }

    /// Names every type that comes in, floats not.
    pub fn all() -> Vec<Type> {
        let number = |(format, width): &(&str, usize)| Type::Number(format.to_string(), *width);
        let numbers = [
            ("C", 1),
            ("S", 2),
            ("I", 4),
            ("L", 8),
            ("c", 1),
            ("s", 2),
            ("i", 4),
            ("l", 8),
            ("tdD", 4),
            ("tdm", 8),
            ("tts", 4),
            ("ttm", 4),
            ("ttu", 8),
            ("ttn", 8),
            ("tss:", 8),
            ("tsm:UTC", 8),
            ("tsu:Europe/Oslo", 8),
            ("tsn:", 8),
            ("tDs", 8),
            ("tDm", 8),
            ("tDu", 8),
            ("tDn", 8),
            ("tiM", 4),
            ("d:9,2,32", 4),
            ("d:18,-3,64", 8),
            ("d:38,4", 16),
        ];
        let mut flat: Vec<Type> = numbers.iter().map(number).collect();
        flat.extend([
            Type::Truth,
            Type::Text("u", 4),
            Type::Text("U", 8),
            Type::Text("z", 4),
            Type::Text("Z", 8),
        ]);
        flat.extend([
            Type::View("vu"),
            Type::View("vz"),
            Type::Fixed(0),
            Type::Fixed(3),
        ]);
        let mut all = flat.clone();
        for (place, inner) in flat.iter().enumerate() {
            all.push(Type::Runs([2, 4, 8][place % 3], Box::new(inner.clone())));
            all.push(Type::List([4, 8][place % 2], Box::new(inner.clone())));
            let codes = [("c", 1), ("S", 2), ("i", 4), ("L", 8)][place % 4];
            all.push(Type::Coded(codes.0, codes.1, Box::new(inner.clone())));
        }
        all.push(Type::Runs(
            4,
            Box::new(Type::Coded("c", 1, Box::new(Type::Text("u", 4)))),
        ));
        all.push(Type::Runs(
            8,
            Box::new(Type::Runs(2, Box::new(Type::Truth))),
        ));
        all
    }
}
