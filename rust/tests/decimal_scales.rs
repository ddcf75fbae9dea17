//! Decimals of two precisions and scales: compared, added, subtracted, picked and joined, in every form. The answers due
//! are worked with the digits of each number, written as text, or by hand.
use hivevigil::arrow::concat;
use hivevigil::{
    Column, Decimal, Error, ErrorKind, Form, Kind, Operator, Table, TableError, Value,
};
use std::cmp::Ordering;

const SCALES: std::ops::RangeInclusive<i8> = -5..=20;
const OPERATORS: [Operator; 6] = [
    Operator::Equal,
    Operator::NotEqual,
    Operator::Greater,
    Operator::GreaterOrEqual,
    Operator::Less,
    Operator::LessOrEqual,
];

/// Rolls numbers that look random.
struct Dice(u64);

impl Dice {
    fn below(&mut self, count: usize) -> usize {
        let (product, step) = (6364136223846793005u64, 1442695040888963407);
        self.0 = self.0.wrapping_mul(product).wrapping_add(step);
        (self.0 >> 33) as usize % count
    }

    /// Rolls a number of some digits or of all that the precision has, or 0; often with zeros at its end.
    fn number(&mut self, precision: u8) -> i128 {
        let digits = 1 + self.below(precision.into()) as u32;
        let zeros = self.below(digits as usize + 1) as u32;
        let some = (0..digits).fold(0, |number, _| number * 10 + self.below(10) as i128);
        let sign = if self.below(2) == 0 { 1 } else { -1 };
        match self.below(6) {
            0 => sign * (10i128.pow(precision.into()) - 1),
            1 => 0,
            2 => sign * some,
            _ => sign * (some / 10i128.pow(zeros) * 10i128.pow(zeros)),
        }
    }
}

/// Writes the digits of a number in units of the last place of the greatest scale, without zeros before them.
fn digits_of(number: i128, scale: i8) -> String {
    let zeros = usize::try_from(SCALES.end() - scale).unwrap();
    match number {
        0 => String::new(),
        _ => number.unsigned_abs().to_string() + &"0".repeat(zeros),
    }
}

fn order_of(left: i128, scale: i8, right: i128, other: i8) -> Ordering {
    let (one, two) = (digits_of(left, scale), digits_of(right, other));
    let order = one.len().cmp(&two.len()).then(one.cmp(&two));
    match (left < 0, right < 0) {
        (true, true) => order.reverse(),
        (false, false) => order,
        (true, false) => Ordering::Less,
        (false, true) => Ordering::Greater,
    }
}

fn holds(operator: Operator, order: Ordering) -> bool {
    match operator {
        Operator::Equal => order == Ordering::Equal,
        Operator::NotEqual => order != Ordering::Equal,
        Operator::Greater => order == Ordering::Greater,
        Operator::GreaterOrEqual => order != Ordering::Less,
        Operator::Less => order == Ordering::Less,
        Operator::LessOrEqual => order != Ordering::Greater,
    }
}

/// Holds rows of decimals of a type.
#[derive(Clone, Debug)]
struct Rows {
    kind: Kind,
    cells: Vec<Option<i128>>,
}

impl Rows {
    /// Makes rows that often repeat the one before, and often are those of others where the type has them.
    fn random(dice: &mut Dice, count: usize, other: Option<&Rows>) -> Rows {
        let scale = *SCALES.start() + dice.below(SCALES.count()) as i8;
        let precision = [1 + dice.below(38), 38 - dice.below(9)][dice.below(3) / 2];
        let mut kind = Kind::decimal(precision as u8, scale);
        if dice.below(3) == 0 {
            kind.precision = kind.precision / 4 + 1;
        }
        if let Some(other) = other {
            kind.scale = [kind.scale, other.kind.scale][dice.below(5) / 4];
            kind.precision = [kind.precision, other.kind.precision][dice.below(4) / 3];
        }
        kind.nullable = u8::from(dice.below(4) > 0);
        let mut rows = Rows {
            kind,
            cells: Vec::new(),
        };
        for row in 0..count {
            let before = rows.cells.last().copied();
            let near = other.and_then(|other| other.at(row, kind.precision, kind.scale));
            let cell = match (near, before) {
                (Some(near), _) if dice.below(2) == 0 => Some(near),
                (_, Some(before)) if dice.below(3) > 0 => before,
                _ => Some(dice.number(kind.precision)),
            };
            let is_null = kind.is_nullable() && dice.below(6) == 0;
            rows.cells.push(cell.filter(|_| !is_null));
        }
        rows
    }

    /// Finds the digits of a row at a scale, where it has this many there; `None` for null.
    fn at(&self, row: usize, precision: u8, scale: i8) -> Option<i128> {
        let number = self.cells[row]?;
        let digits = digits_of(number, self.kind.scale);
        let left_out = usize::try_from(SCALES.end() - scale).unwrap();
        let (kept, rest) = digits.split_at(digits.len().saturating_sub(left_out));
        if rest.chars().any(|digit| digit != '0') || kept.len() > precision.into() {
            return None;
        }
        let found: i128 = format!("0{kept}").parse().unwrap();
        Some(if number < 0 { -found } else { found })
    }

    /// Makes the column flat, in runs, in a part of runs, or as a constant, whose rows are then all the same.
    fn column(&mut self, form: usize) -> Column {
        let Kind {
            precision, scale, ..
        } = self.kind;
        if let (3, Some(first)) = (form, self.cells.first().copied()) {
            self.cells.fill(first);
            let value = first.map_or(Value::Null, |digits| Decimal::new(digits, scale).into());
            return Column::constant(self.kind, value, self.cells.len()).unwrap();
        }
        let mut cells = self.cells.clone();
        cells.insert(0, Some(i128::MAX));
        let valid: Vec<bool> = cells.iter().map(Option::is_some).collect();
        let digits: Vec<i128> = cells.iter().map(|cell| cell.unwrap_or(7)).collect();
        let valid = self.kind.is_nullable().then_some(&valid[..]);
        let flat = Column::decimals(&digits, precision, scale, valid).unwrap();
        match form {
            0 => flat.slice(1..).unwrap(),
            _ => flat.encode_rows().unwrap().slice(1..).unwrap(),
        }
    }
}

/// Says what refuses rows: the first field, and the sentence.
type Refused = (u64, String);

/// Brings rows to one type, that with the greatest scale and the most digits before the point, of 38 at most.
fn at_one_type(all: &[&Rows]) -> Result<Vec<Rows>, Refused> {
    let scale = all.iter().map(|rows| rows.kind.scale).max().unwrap();
    let before = |rows: &&Rows| i32::from(rows.kind.precision) - i32::from(rows.kind.scale);
    let digits = all.iter().map(before).max().unwrap() + i32::from(scale);
    let kind = Kind::decimal(digits.min(38) as u8, scale);
    let is_one_type = all.iter().all(|rows| rows.kind.not_nullable() == kind);
    let bring = |rows: &&Rows| {
        let mut made = (*rows).clone();
        made.kind = kind;
        for (row, cell) in made.cells.iter_mut().enumerate() {
            if let (Some(number), false) = (*cell, is_one_type) {
                let value = Decimal::new(number, rows.kind.scale);
                let words = format!("row {row} is {value}, which does not fit {kind}");
                let found = rows.at(row, kind.precision, scale);
                *cell = Some(found.ok_or((row as u64, words))?);
            }
        }
        Ok(made)
    };
    all.iter().map(bring).collect()
}

fn check(
    found: Result<Column, Error>,
    due: Result<(Kind, Vec<Option<i128>>), Refused>,
    form: Form,
) {
    let (kind, cells) = match due {
        Ok(due) => due,
        Err((row, words)) => {
            let refused = found.unwrap_err();
            assert_eq!(refused.kind(), Some(ErrorKind::CastOutOfRange));
            assert_eq!((refused.fields.first, refused.to_string()), (row, words));
            return;
        }
    };
    let found = found.unwrap();
    assert_eq!(found.kind().not_nullable(), kind.not_nullable());
    assert_eq!((found.len(), found.form()), (cells.len(), form));
    for (row, cell) in cells.into_iter().enumerate() {
        match (found.at(row).unwrap(), cell) {
            (Value::Null, None) => {}
            (Value::Decimal(number), Some(digits)) => {
                assert_eq!((number.digits, number.scale), (digits, kind.scale))
            }
            other => panic!("{other:?}"),
        }
    }
}

/// Compares in runs by name, and in the forms that the session's kernels give.
fn check_compared(dice: &mut Dice, a: &Column, left: &Rows, b: &Column, right: &Rows) {
    let operator = OPERATORS[dice.below(6)];
    let named = match operator {
        Operator::Equal => a.eq_rows(b),
        Operator::NotEqual => a.ne_rows(b),
        Operator::Greater => a.gt_rows(b),
        Operator::GreaterOrEqual => a.ge_rows(b),
        Operator::Less => a.lt_rows(b),
        Operator::LessOrEqual => a.le_rows(b),
    };
    let (named, mask) = (named.unwrap(), a.compare(operator, b).unwrap());
    let is_nullable = left.kind.is_nullable() || right.kind.is_nullable();
    assert_eq!(named.kind().is_nullable(), is_nullable);
    let are_constants = a.form() == Form::Constant && b.form() == Form::Constant;
    let form = [Form::Runs, Form::Constant][usize::from(are_constants)];
    assert_eq!((named.len(), named.form()), (left.cells.len(), form));
    assert_eq!(mask.len(), left.cells.len());
    for (row, pair) in left.cells.iter().zip(&right.cells).enumerate() {
        let due = match pair {
            (Some(one), Some(other)) => {
                let order = order_of(*one, left.kind.scale, *other, right.kind.scale);
                Value::Truth(holds(operator, order))
            }
            _ => Value::Null,
        };
        assert_eq!(
            (named.at(row).unwrap(), mask.at(row).unwrap()),
            (due.clone(), due)
        );
    }
}

/// Works rows at one scale, or finds the first of which the answer has more digits than the type.
fn worked(left: &Rows, is_sum: bool, right: &Rows) -> Result<(Kind, Vec<Option<i128>>), Refused> {
    let precision = left.kind.precision.max(right.kind.precision) + 1;
    let kind = Kind::decimal(precision.min(38), left.kind.scale);
    let pairs = left.cells.iter().zip(&right.cells).enumerate();
    let cells = pairs.map(|(row, pair)| {
        let (Some(one), Some(other)) = pair else {
            return Ok(None);
        };
        let made = match is_sum {
            true => one.checked_add(*other),
            false => one.checked_sub(*other),
        };
        let made = made.filter(|made| made.abs() < 10i128.pow(kind.precision.into()));
        let shown = [*one, *other].map(|digits| Decimal::new(digits, kind.scale));
        let sign = if is_sum { "+" } else { "-" };
        let words = format!(
            "decimal overflow: row {row} is {} {sign} {}, which does not fit {kind}",
            shown[0], shown[1]
        );
        made.map(Some).ok_or((row as u64, words))
    });
    Ok((kind, cells.collect::<Result<_, _>>()?))
}

/// Adds or subtracts: at one scale in the precisions of both, else as decimals of one type.
fn check_sums(dice: &mut Dice, sides: [&Column; 2], left: &Rows, right: &Rows, form: Form) {
    let is_sum = dice.below(2) == 0;
    let found = match is_sum {
        true => sides[0].checked_add(sides[1]),
        false => sides[0].checked_sub(sides[1]),
    };
    let due = match left.kind.scale == right.kind.scale {
        true => worked(left, is_sum, right),
        false => at_one_type(&[left, right]).and_then(|both| worked(&both[0], is_sum, &both[1])),
    };
    check(found, due, form);
}

/// Picks the first that is not null, the lesser, the greater, and what a mask chooses.
fn check_picks(dice: &mut Dice, sides: [&Column; 2], left: &Rows, right: &Rows, form: Form) {
    let [a, b] = sides;
    let flags: Vec<Option<bool>> = left
        .cells
        .iter()
        .map(|_| [None, Some(true), Some(false)][dice.below(3)])
        .collect();
    let mask = Column::try_from(flags.clone()).unwrap();
    let picked = |pick: &dyn Fn(usize, Option<i128>, Option<i128>) -> Option<i128>| {
        at_one_type(&[left, right]).map(|both| {
            let pairs = both[0].cells.iter().zip(&both[1].cells).enumerate();
            let cells = pairs.map(|(row, (one, other))| pick(row, *one, *other));
            (both[0].kind, cells.collect())
        })
    };
    let least = |_, one: Option<i128>, other: Option<i128>| Some(one?.min(other?));
    let greatest = |_, one: Option<i128>, other: Option<i128>| Some(one?.max(other?));
    let chosen =
        |row: usize, one, other| flags[row].and_then(|flag| if flag { one } else { other });
    check(a.coalesce(b), picked(&|_, one, other| one.or(other)), form);
    check(a.lesser(b), picked(&least), form);
    check(a.greater(b), picked(&greatest), form);
    check(mask.choose(a, b), picked(&chosen), Form::Runs);
}

/// Joins columns, and tables of them.
fn check_joined(dice: &mut Dice, sides: [&Column; 2], left: &Rows, right: &Rows) {
    let [a, b] = sides;
    let mut more = Rows::random(dice, 3, Some(right).filter(|rows| rows.cells.len() > 2));
    let c = more.column(1);
    let joined = |all: &[&Rows]| {
        at_one_type(all).map(|all| {
            let cells = all.iter().flat_map(|rows| rows.cells.clone());
            (all[0].kind, cells.collect())
        })
    };
    let is_flat = |column: &Column| column.form() == Form::Flat;
    let form = [Form::Runs, Form::Flat][usize::from(is_flat(a) || is_flat(b))];
    check(concat(&[a, b]), joined(&[left, right]), form);
    check(concat(&[a, b, &c]), joined(&[left, right, &more]), form);
    let [first, second] =
        [a, b].map(|column| Table::try_from_iter([("price", column.clone())]).unwrap());
    match (first.append(&second), joined(&[left, right])) {
        (Ok(table), due) => {
            let (price, form) = (table["price"].clone(), table["price"].form());
            check(Ok(price), due, form)
        }
        (Err(TableError::Column { error, .. }), due) => check(Err(error), due, form),
        (Err(other), _) => panic!("{other:?}"),
    }
}

#[test]
fn two_columns_of_any_scales() {
    let mut dice = Dice(31);
    let mut refused = 0;
    for _ in 0..1500 {
        let count = dice.below(16);
        let mut left = Rows::random(&mut dice, count, None);
        let a = left.column(dice.below(4));
        let mut right = Rows::random(&mut dice, count, Some(&left));
        let b = right.column(dice.below(4));
        let are_constants = a.form() == Form::Constant && b.form() == Form::Constant;
        let form = [Form::Runs, Form::Constant][usize::from(are_constants)];
        check_compared(&mut dice, &a, &left, &b, &right);
        check_sums(&mut dice, [&a, &b], &left, &right, form);
        check_picks(&mut dice, [&a, &b], &left, &right, form);
        check_joined(&mut dice, [&a, &b], &left, &right);
        refused += usize::from(at_one_type(&[&left, &right]).is_err());
    }
    assert!((80..1000).contains(&refused), "{refused}");
}

#[test]
fn columns_are_compared_with_numbers_of_any_scale() {
    let mut dice = Dice(37);
    for _ in 0..1500 {
        let count = 1 + dice.below(8);
        let mut rows = Rows::random(&mut dice, count, None);
        let column = rows.column(dice.below(4));
        let scale = [0, *SCALES.start() + dice.below(SCALES.count()) as i8][dice.below(2)];
        let (number, operator) = (dice.number(18), OPERATORS[dice.below(6)]);
        let mask = column.compare_value(operator, Decimal::new(number, scale));
        let mut masks = vec![mask.unwrap()];
        if scale == 0 {
            masks.push(column.compare_value(operator, number as i64).unwrap());
        }
        for (row, cell) in rows.cells.iter().enumerate() {
            let due = cell.map_or(Value::Null, |cell| {
                Value::Truth(holds(
                    operator,
                    order_of(cell, rows.kind.scale, number, scale),
                ))
            });
            assert!(masks.iter().all(|mask| mask.at(row).unwrap() == due));
        }
    }
}

#[test]
fn numbers_are_in_order_at_any_scale() {
    let ascending = [
        Decimal::new(i128::MIN, -128),
        Decimal::new(-1, -128),
        Decimal::new(i128::MIN, 0),
        Decimal::new(-101, 2),
        Decimal::new(-1005, 3),
        Decimal::new(-1, 127),
        Decimal::new(0, 5),
        Decimal::new(1, 127),
        Decimal::new(1005, 3),
        Decimal::new(101, 2),
        Decimal::new(i128::MAX, 1),
        Decimal::new(i128::MAX, 0),
        Decimal::new(1, -128),
    ];
    for (one, left) in ascending.iter().enumerate() {
        for (other, right) in ascending.iter().enumerate() {
            assert_eq!(
                (left.cmp(right), left == right),
                (one.cmp(&other), one == other)
            );
        }
    }
    assert_eq!(
        Decimal::new(1050, 2).cmp(&Decimal::new(105, 1)),
        Ordering::Equal
    );
}

fn one(digits: i128, precision: u8, scale: i8) -> Column {
    Column::decimals(&[digits], precision, scale, None).unwrap()
}

#[test]
fn rows_without_a_place_are_refused_or_compared() {
    let (cents, far) = (one(500, 4, 2), one(0, 4, 126));
    let words = "row 0 is 5.00, which does not fit decimal(38, 126)";
    let mask = Column::try_from([true]).unwrap();
    let refused = [
        cents.checked_add(&far),
        far.checked_sub(&cents),
        far.lesser(&cents),
        mask.choose(&cents, &far),
        concat(&[&far, &cents]),
    ];
    for error in refused.map(Result::unwrap_err) {
        assert_eq!(error.kind(), Some(ErrorKind::CastOutOfRange));
        assert_eq!((error.fields.first, error.to_string().as_str()), (0, words));
    }
    assert_eq!(
        cents.gt_rows(&far).unwrap().at(0).unwrap(),
        Value::Truth(true)
    );
    let below = far.compare(Operator::Less, &cents).unwrap();
    assert_eq!(below.at(0).unwrap(), Value::Truth(true));
    let kind = Kind::decimal(38, 20);
    let many = Column::constant(kind, Decimal::new(i128::MAX / 2, 20), 1 << 60).unwrap();
    let five = Column::constant(
        Kind::decimal(38, 0),
        Decimal::new(10i128.pow(37), 0),
        1 << 60,
    )
    .unwrap();
    let above = five.gt_rows(&many).unwrap();
    assert_eq!((above.form(), above.len()), (Form::Constant, 1 << 60));
    assert_eq!(above.at(5).unwrap(), Value::Truth(true));
}

#[test]
fn refusals_come_in_the_order_of_one_type() {
    let (cents, far) = (one(500, 4, 2), one(0, 4, 126));
    let two = Column::constant(Kind::decimal(6, 3), 7, 2).unwrap();
    let (mask, whole) = (
        Column::try_from([true]).unwrap(),
        Column::new(&[4i64]).unwrap(),
    );
    let lengths = [
        cents.checked_add(&two),
        cents.coalesce(&two),
        cents.eq_rows(&two),
        cents.compare(Operator::Less, &two),
        far.compare(Operator::Less, &two),
        far.eq_rows(&two),
        far.checked_add(&two),
        mask.choose(&far, &two),
        mask.choose(&two, &two.cast(Kind::decimal(9, 5)).unwrap()),
    ];
    for error in lengths.map(Result::unwrap_err) {
        assert_eq!(error.kind(), Some(ErrorKind::ColumnLength));
        assert_eq!((error.fields.first, error.fields.second), (1, 2));
    }
    let unsupported = [whole.choose(&cents, &far), cents.and(&two)];
    for error in unsupported.map(Result::unwrap_err) {
        assert_eq!(error.kind(), Some(ErrorKind::Unsupported));
    }
    let mismatched = [
        cents.lesser(&whole),
        cents.eq_rows(&whole),
        concat(&[&cents, &far, &whole]),
    ];
    for error in mismatched.map(Result::unwrap_err) {
        assert_eq!(error.kind(), Some(ErrorKind::TypeMismatch));
    }
    // at one scale nothing is cast: no row is tested against its precision
    let past = one(12_345, 3, 2).checked_add(&cents).unwrap();
    assert_eq!(past.kind(), Kind::decimal(5, 2));
    assert_eq!(past.at(0).unwrap().to_string(), "128.45");
    let refused = one(1500, 4, 2).cast(Kind::decimal(2, 2)).unwrap_err();
    assert_eq!((refused.fields.first, refused.fields.second), (0, 0));
    let refused = one(1505, 4, 2).cast(Kind::I64).unwrap_err();
    assert_eq!((refused.fields.first, refused.fields.second), (0, 1));
}
