//! Columns and tables of 2^40 rows in a few runs, held against their stretches of equal rows: no row is read.
mod table_model;

use hivevigil::{Column, Error, Form, Kind, Operator, Table, TableError, Value};
use std::cmp::Ordering;
use table_model::{compare, flat, random_rows, Dice};

const TURNS: usize = 200;
const ROWS: usize = (1 << 40) + 70;
/// Counts the rows before a window, or after it.
const HIDDEN: [usize; 3] = [0, 3, 1 << 40];
const KINDS: [Kind; 7] = [
    Kind::I32,
    Kind::U64,
    Kind::I8,
    Kind::BOOL,
    Kind::decimal(6, 2),
    Kind::UTF8,
    Kind::BINARY,
];

/// Holds rows as stretches of equal ones: how many, and their value.
type Parts = Vec<(usize, Value)>;

/// Joins stretches, as few as possible.
fn joined(parts: impl IntoIterator<Item = (usize, Value)>) -> Parts {
    let mut found = Parts::new();
    for (rows, value) in parts {
        match found.last_mut() {
            Some(last) if last.1 == value => last.0 += rows,
            _ if rows > 0 => found.push((rows, value)),
            _ => {}
        }
    }
    found
}

/// Reads the stretches of a column run by run.
fn parts_of(column: &Column) -> Result<Parts, Error> {
    let runs = column.runs()?.collect::<Result<Vec<_>, Error>>()?;
    Ok(joined(
        runs.into_iter()
            .map(|run| (run.rows.end - run.rows.start, run.value)),
    ))
}

/// Works two columns by the stretches in which both stay the same.
fn worked(left: &Parts, right: &Parts, work: impl Fn(&Value, &Value) -> Value) -> Parts {
    let stretches = beside(left, right);
    joined(
        stretches
            .into_iter()
            .map(|(rows, left, right)| (rows, work(&left, &right))),
    )
}

fn beside(left: &Parts, right: &Parts) -> Vec<(usize, Value, Value)> {
    let (mut left, mut right) = (left.clone(), right.clone());
    let mut found = Vec::new();
    while let (Some(one), Some(other)) = (left.first_mut(), right.first_mut()) {
        let rows = one.0.min(other.0);
        found.push((rows, one.1.clone(), other.1.clone()));
        one.0 -= rows;
        other.0 -= rows;
        left.retain(|part| part.0 > 0);
        right.retain(|part| part.0 > 0);
    }
    found
}

/// Keeps the stretches of the rows at which the mask is true.
fn kept(rows: &Parts, mask: &Parts) -> Parts {
    let stretches = beside(rows, mask).into_iter();
    joined(
        stretches
            .filter(|(_, _, flag)| *flag == Value::Truth(true))
            .map(|(rows, value, _)| (rows, value)),
    )
}

/// Makes a column of a type in few runs, in a window of longer ones, over runs, or as a constant.
fn random(dice: &mut Dice, kind: Kind) -> Result<(Column, Parts), Error> {
    let mut stops: Vec<usize> = (0..dice.below(6))
        .map(|_| {
            let near = 1 + dice.below(130);
            let far = (1 + dice.below(1 << 20)) << 20;
            [near, ROWS - near, far][dice.below(3)]
        })
        .collect();
    stops.push(ROWS);
    stops.sort_unstable();
    stops.dedup();
    let rows = random_rows(dice, kind, stops.len());
    if stops.len() == 1 && dice.below(2) == 0 {
        let column = Column::constant(kind, &rows[0], ROWS)?;
        return Ok((column, vec![(ROWS, rows[0].clone())]));
    }
    let mut values = flat(kind, &rows)?;
    if dice.below(2) == 0 {
        values = values.encode_rows()?;
    }
    let before = HIDDEN[dice.below(3)];
    let mut ends: Vec<u64> = stops.iter().map(|stop| (before + stop) as u64).collect();
    *ends.last_mut().expect("a run") += HIDDEN[dice.below(3)] as u64;
    let column = Column::from_runs(&Column::new(&ends)?, &values, before, ROWS)?;
    let starts = [&[0], &stops[..]].concat();
    let lengths = starts.iter().zip(&stops).map(|(start, stop)| stop - start);
    Ok((column, joined(lengths.zip(rows))))
}

/// Draws a type, with null or without.
fn random_kind(dice: &mut Dice) -> Kind {
    let kind = KINDS[dice.below(KINDS.len())];
    [kind, kind.nullable()][dice.below(2)]
}

fn in_turns(
    seed: u64,
    mut check: impl FnMut(&mut Dice) -> Result<(), TableError>,
) -> Result<(), TableError> {
    let mut dice = Dice(seed);
    (0..TURNS).try_for_each(|_| check(&mut dice))
}

type Holds = fn(Ordering) -> bool;
const OPERATORS: [(Operator, Holds); 6] = [
    (Operator::Equal, Ordering::is_eq),
    (Operator::NotEqual, Ordering::is_ne),
    (Operator::Greater, Ordering::is_gt),
    (Operator::GreaterOrEqual, Ordering::is_ge),
    (Operator::Less, Ordering::is_lt),
    (Operator::LessOrEqual, Ordering::is_le),
];

/// Says whether a comparison holds of two rows, null where either is.
fn held(holds: Holds) -> impl Fn(&Value, &Value) -> Value {
    move |left, right| match (left, right) {
        (Value::Null, _) | (_, Value::Null) => Value::Null,
        _ => Value::Truth(holds(compare(left, right))),
    }
}

#[test]
fn rows_are_compared_with_a_value_and_kept() -> Result<(), TableError> {
    in_turns(1, |dice| {
        let kind = random_kind(dice);
        let (column, parts) = random(dice, kind)?;
        let (operator, holds) = OPERATORS[dice.below(6)];
        let value = random_rows(dice, kind, 1).swap_remove(0);
        let mask = column.compare_value(operator, value.clone())?;
        let due = worked(&parts, &vec![(ROWS, value.clone())], held(holds));
        assert!(mask.form() != Form::Flat);
        assert_eq!(parts_of(&mask)?, due);
        assert_eq!(parts_of(&column.filter(&mask)?)?, kept(&parts, &due));
        let (other, others) = random(dice, Kind::I32)?;
        let table = Table::try_from_iter([("asked", column), ("other", other)])?;
        let chosen = table.filter_by("asked", operator, value)?;
        assert_eq!(parts_of(&chosen["asked"])?, kept(&parts, &due));
        assert_eq!(parts_of(&chosen["other"])?, kept(&others, &due));
        Ok(())
    })
}

#[test]
fn two_columns_are_compared() -> Result<(), TableError> {
    in_turns(2, |dice| {
        let kind = random_kind(dice);
        let (left, lefts) = random(dice, kind)?;
        let (right, rights) = random(dice, kind)?;
        let (operator, holds) = OPERATORS[dice.below(6)];
        let mask = left.compare(operator, &right)?;
        assert!(mask.form() != Form::Flat);
        assert_eq!(parts_of(&mask)?, worked(&lefts, &rights, held(holds)));
        Ok(())
    })
}

#[test]
fn masks_keep_rows_of_tables() -> Result<(), TableError> {
    in_turns(3, |dice| {
        let kinds = [random_kind(dice), random_kind(dice)];
        let (left, lefts) = random(dice, kinds[0])?;
        let (right, rights) = random(dice, kinds[1])?;
        let (mask, flags) = random(dice, Kind::BOOL.nullable())?;
        let valid = mask.is_valid()?;
        let due = worked(&flags, &flags, |flag, _| Value::Truth(*flag != Value::Null));
        assert_eq!(parts_of(&valid)?, due);
        let table = Table::try_from_iter([("left", left), ("right", right), ("flags", mask)])?;
        for (mask, flags) in [(&table["flags"], &flags), (&valid, &due)] {
            let chosen = table.filter(mask)?;
            assert_eq!(parts_of(&chosen["left"])?, kept(&lefts, flags));
            assert_eq!(parts_of(&chosen["right"])?, kept(&rights, flags));
        }
        Ok(())
    })
}

#[test]
fn rows_are_connected_and_chosen() -> Result<(), TableError> {
    in_turns(4, |dice| {
        let kind = [Kind::I32, Kind::BOOL.nullable(), Kind::U64.nullable()][dice.below(3)];
        let (left, lefts) = random(dice, kind)?;
        let (right, rights) = random(dice, kind)?;
        let (mask, flags) = random(dice, Kind::BOOL)?;
        let due = chosen(&flags, &lefts, &rights);
        assert_eq!(parts_of(&mask.choose(&left, &right)?)?, due);
        let (other, others) = random(dice, Kind::BOOL)?;
        let both = worked(&flags, &others, |one, other| {
            Value::Truth(*one == Value::Truth(true) && *other == Value::Truth(true))
        });
        assert_eq!(parts_of(&mask.and(&other)?)?, both);
        assert_eq!(
            parts_of(&mask.not()?)?,
            worked(&flags, &flags, |flag, _| Value::Truth(
                *flag != Value::Truth(true)
            ))
        );
        Ok(())
    })
}

/// Chooses the left rows where a flag is true, and else the right ones.
fn chosen(flags: &Parts, left: &Parts, right: &Parts) -> Parts {
    let mut found = Parts::new();
    let mut start = 0;
    for (rows, left, right) in beside(left, right) {
        for (count, flag) in within(flags, start, start + rows) {
            let is_left = flag == Value::Truth(true);
            found.push((count, if is_left { left.clone() } else { right.clone() }));
        }
        start += rows;
    }
    joined(found)
}

/// Cuts stretches to the rows of a range.
fn within(parts: &Parts, start: usize, stop: usize) -> Parts {
    let mut before = 0;
    let mut found = Parts::new();
    for (rows, value) in parts {
        let (low, high) = (before.max(start), (before + rows).min(stop));
        if low < high {
            found.push((high - low, value.clone()));
        }
        before += rows;
    }
    found
}

#[test]
fn rows_are_cut_joined_and_sorted() -> Result<(), TableError> {
    in_turns(5, |dice| {
        let kind = random_kind(dice);
        let (column, parts) = random(dice, kind)?;
        let start = [0, dice.below(200), ROWS / 3][dice.below(3)];
        let stop = ROWS - [0, dice.below(200), ROWS / 3][dice.below(3)];
        let due = within(&parts, start, stop);
        let table = Table::try_from_iter([("rows", column)])?;
        let cut = table.slice(start..stop)?;
        assert_eq!(parts_of(&cut["rows"])?, due);
        let both = [&due[..], &parts[..]].concat();
        assert_eq!(parts_of(&cut.append(&table)?["rows"])?, joined(both));
        let few = random_rows(dice, kind, 30);
        let after = Table::try_from_iter([("rows", flat(kind, &few)?)])?;
        let both = parts
            .iter()
            .cloned()
            .chain(few.into_iter().map(|row| (1, row)));
        assert_eq!(parts_of(&table.append(&after)?["rows"])?, joined(both));
        let mut ordered = parts.clone();
        ordered.sort_by(|one, other| match (&one.1, &other.1) {
            (Value::Null, Value::Null) => Ordering::Equal,
            (Value::Null, _) => Ordering::Less,
            (_, Value::Null) => Ordering::Greater,
            (one, other) => compare(one, other),
        });
        assert_eq!(parts_of(&table["rows"].sorted()?)?, joined(ordered));
        let reversed = parts.into_iter().rev();
        assert_eq!(parts_of(&table["rows"].reversed()?)?, joined(reversed));
        Ok(())
    })
}
