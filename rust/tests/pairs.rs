//! Two columns worked place by place, against a loop over the rows.
use hivevigil::{Column, Error, ErrorKind, Form, Kind, Value};

type Rows<T> = Vec<Option<T>>;
type Call = fn(&Column, &Column) -> Result<Column, Error>;
type Give = fn(i16, i16) -> i16;
type Holds = fn(&str, &str) -> bool;
type Pick = fn(Option<i8>, Option<i8>) -> Option<i8>;

fn next(seed: &mut u64) -> u64 {
    *seed = seed
        .wrapping_mul(6364136223846793005)
        .wrapping_add(1442695040888963407);
    *seed >> 33
}

/// Makes rows that often repeat the one before.
fn random_rows<T: Copy>(seed: &mut u64, count: usize, items: &[T]) -> Rows<T> {
    let mut row = None;
    (0..count)
        .map(|at| {
            if at == 0 || next(seed) % 3 == 0 {
                let item = items[next(seed) as usize % items.len()];
                row = (next(seed) % 4 > 0).then_some(item);
            }
            row
        })
        .collect()
}

/// Puts rows into one of three forms: flat, in runs, or as a window on runs.
fn formed(seed: &mut u64, flat: Column) -> Result<Column, Error> {
    match next(seed) % 3 {
        0 => Ok(flat),
        1 => flat.encode_rows(),
        _ => {
            let rows = flat.len();
            let twice: Vec<u64> = (0..rows as u64).chain(0..rows as u64).collect();
            flat.take(&Column::new(&twice)?)?
                .encode_rows()?
                .slice(rows..)
        }
    }
}

fn shown(column: &Column) -> Result<Vec<Value>, Error> {
    column.rows().collect()
}

fn truths_of(rows: &[Option<bool>]) -> Vec<Value> {
    rows.iter()
        .map(|row| row.map_or(Value::Null, Value::Truth))
        .collect()
}

/// Counts the stretches of equal rows.
fn stretches(rows: &[Value]) -> usize {
    rows.iter()
        .enumerate()
        .filter(|(at, row)| *at == 0 || rows[at - 1] != **row)
        .count()
}

/// Checks what a call makes of two columns: rows, type and form.
fn check_due(
    call: Call,
    left: &Column,
    right: &Column,
    due: Vec<Value>,
    kind: Kind,
) -> Result<(), Error> {
    let found = call(left, right)?;
    let form = match (left.form(), right.form()) {
        (Form::Constant, Form::Constant) => Form::Constant,
        _ => Form::Runs,
    };
    assert_eq!(shown(&found)?, due);
    assert_eq!((found.kind(), found.form()), (kind.nullable(), form));
    assert_eq!(found.runs()?.count(), stretches(&due));
    Ok(())
}

#[test]
fn integers_agree_with_a_loop() -> Result<(), Error> {
    let (mut seed, items) = (3, [0i8, 1, 2, 100, 127, -1, -2, -100, -128]);
    let calls: [(Call, Give, &str); 3] = [
        (Column::checked_add, |a, b| a + b, "+"),
        (Column::checked_sub, |a, b| a - b, "-"),
        (Column::checked_mul, |a, b| a * b, "*"),
    ];
    for trial in 0..300 {
        let count = trial % 40;
        let rows: [Rows<i8>; 2] = [(); 2].map(|()| random_rows(&mut seed, count, &items));
        let left = formed(&mut seed, Column::try_from(rows[0].clone())?)?;
        let right = formed(&mut seed, Column::try_from(rows[1].clone())?)?;
        for (call, give, sign) in calls {
            let both = |at: usize| Some((rows[0][at]?, rows[1][at]?));
            let number = |at: usize| both(at).map(|(a, b)| give(a.into(), b.into()));
            let past = |at: &usize| number(*at).is_some_and(|n| i8::try_from(n).is_err());
            let Some(row) = (0..count).find(past) else {
                let due = (0..count)
                    .map(|at| number(at).map_or(Value::Null, |n| Value::Signed(n.into())));
                check_due(call, &left, &right, due.collect(), Kind::I8)?;
                continue;
            };
            let refused = call(&left, &right).unwrap_err();
            let (a, b) = both(row).unwrap();
            let said =
                format!("integer overflow: row {row} is {a} {sign} {b}, which does not fit i8");
            assert_eq!(refused.kind(), Some(ErrorKind::CastOutOfRange));
            assert_eq!(
                (refused.fields.first, refused.to_string()),
                (row as u64, said)
            );
        }
    }
    Ok(())
}

#[test]
fn comparisons_agree_with_a_loop() -> Result<(), Error> {
    let (mut seed, items) = (5, ["", "a", "ab", "b"]);
    let calls: [(Call, Holds); 6] = [
        (Column::eq_rows, |a, b| a == b),
        (Column::ne_rows, |a, b| a != b),
        (Column::lt_rows, |a, b| a < b),
        (Column::le_rows, |a, b| a <= b),
        (Column::gt_rows, |a, b| a > b),
        (Column::ge_rows, |a, b| a >= b),
    ];
    for trial in 0..100 {
        let count = trial % 40;
        let rows: [Rows<&str>; 2] = [(); 2].map(|()| random_rows(&mut seed, count, &items));
        let left = formed(&mut seed, Column::try_from(rows[0].clone())?)?;
        let right = formed(&mut seed, Column::try_from(rows[1].clone())?)?;
        for (call, holds) in calls {
            let due: Rows<bool> = (0..count)
                .map(|at| Some(holds(rows[0][at]?, rows[1][at]?)))
                .collect();
            check_due(call, &left, &right, truths_of(&due), Kind::BOOL)?;
        }
    }
    Ok(())
}

#[test]
fn booleans_are_connected_where_null_is_unknown() -> Result<(), Error> {
    let all = [Some(false), Some(true), None];
    let rows: Vec<_> = all.iter().flat_map(|a| all.map(|b| (*a, b))).collect();
    let left: Rows<bool> = rows.iter().map(|row| row.0).collect();
    let right: Rows<bool> = rows.iter().map(|row| row.1).collect();
    let (left, right) = (Column::try_from(left)?, Column::try_from(right)?);
    let (no, yes) = (Some(false), Some(true));
    let both = [no, no, no, no, yes, None, no, None, None];
    let either = [no, yes, None, yes, yes, yes, None, yes, None];
    check_due(Column::and, &left, &right, truths_of(&both), Kind::BOOL)?;
    check_due(Column::or, &left, &right, truths_of(&either), Kind::BOOL)?;
    let others = [yes, yes, yes, no, no, no, None, None, None];
    assert_eq!(shown(&left.not()?)?, truths_of(&others));
    Ok(())
}

#[test]
fn rows_are_picked_as_a_loop_picks_them() -> Result<(), Error> {
    let (mut seed, items) = (9, [0i8, 1, 2, 127, -128]);
    let calls: [(Call, Pick); 3] = [
        (Column::coalesce, |a, b| a.or(b)),
        (Column::lesser, |a, b| Some(a?.min(b?))),
        (Column::greater, |a, b| Some(a?.max(b?))),
    ];
    let shown_as = |row: Option<i8>| row.map_or(Value::Null, |n| Value::Signed(n.into()));
    for trial in 0..100 {
        let count = trial % 40;
        let rows: [Rows<i8>; 2] = [(); 2].map(|()| random_rows(&mut seed, count, &items));
        let flags = random_rows(&mut seed, count, &[true, false]);
        let left = formed(&mut seed, Column::try_from(rows[0].clone())?)?;
        let right = formed(&mut seed, Column::try_from(rows[1].clone())?)?;
        for (call, pick) in calls {
            let due = (0..count).map(|at| shown_as(pick(rows[0][at], rows[1][at])));
            check_due(call, &left, &right, due.collect(), Kind::I8)?;
        }
        let mask = formed(&mut seed, Column::try_from(flags.clone())?)?;
        let due: Vec<Value> = (0..count)
            .map(|at| shown_as(flags[at].and_then(|flag| rows[usize::from(!flag)][at])))
            .collect();
        assert_eq!(shown(&mask.choose(&left, &right)?)?, due);
        let nulls: Vec<Value> = rows[0]
            .iter()
            .map(|row| Value::Truth(row.is_none()))
            .collect();
        assert_eq!(
            (shown(&left.is_null()?)?, left.is_null()?.kind()),
            (nulls, Kind::BOOL)
        );
        let valid: Vec<Value> = rows[0]
            .iter()
            .map(|row| Value::Truth(row.is_some()))
            .collect();
        assert_eq!(shown(&left.is_valid()?)?, valid);
    }
    Ok(())
}

#[test]
fn a_column_with_itself_and_constants() -> Result<(), Error> {
    let column = Column::new(&[3u8, 3, 15])?;
    let squares = column.checked_mul(&column)?;
    assert_eq!(squares.numbers::<u8>()?, [9, 9, 225]);
    assert_eq!(squares.kind(), Kind::U8);
    let many = Column::constant(Kind::U8, 7, 1 << 60)?;
    let twice = many.checked_add(&many)?;
    assert_eq!(
        (twice.form(), twice.at(9)?),
        (Form::Constant, Value::Unsigned(14))
    );
    Ok(())
}

#[test]
fn refusals_are_in_words() -> Result<(), Error> {
    let (numbers, wide) = (Column::new(&[1u8, 2])?, Column::new(&[1i64, 2, 3])?);
    let truths = Column::truths(&[true, false], None)?;
    let said = |outcome: Result<Column, Error>| {
        let error = outcome.unwrap_err();
        (error.kind(), error.to_string())
    };
    let (mismatch, unsupported) = (Some(ErrorKind::TypeMismatch), Some(ErrorKind::Unsupported));
    let words = |words: &str| words.to_string();
    assert_eq!(
        said(numbers.checked_add(&wide)),
        (mismatch, words("u8 and i64 are not added"))
    );
    assert_eq!(
        said(truths.checked_sub(&wide)),
        (unsupported, words("bool and i64 are not subtracted"))
    );
    assert_eq!(
        said(numbers.or(&truths)),
        (unsupported, words("u8 and bool are not connected"))
    );
    assert_eq!(
        said(numbers.lt_rows(&truths)),
        (mismatch, words("u8 is not compared with bool"))
    );
    assert_eq!(
        said(numbers.checked_mul(&numbers.slice(..1)?)),
        (
            Some(ErrorKind::ColumnLength),
            words("a length of 2 next to one of 1")
        )
    );
    assert_eq!(
        said(numbers.not()),
        (unsupported, words("u8 has no opposites"))
    );
    assert_eq!(
        said(numbers.coalesce(&Column::try_from(["a", "b"])?)),
        (unsupported, words("u8 and utf8 are not picked from"))
    );
    assert_eq!(
        said(truths.choose(&numbers, &wide)),
        (mismatch, words("u8 and i64 are not chosen from"))
    );
    Ok(())
}
