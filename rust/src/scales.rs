//! Decimals of two precisions or scales, as decimals of one type, and compared.
use crate::same::reaching;
use crate::{Builder, Column, Error, ErrorKind, Form, Kind, Operator, Run, Value};

impl Kind {
    /// Names the decimals that have as many digits before the point as either type, and as many after it, of 38 at
    /// most; null where either has null.
    pub(crate) fn common_decimal(self, other: Kind) -> Kind {
        let before = |kind: Kind| i16::from(kind.precision) - i16::from(kind.scale);
        let scale = self.scale.max(other.scale);
        let digits = before(self).max(before(other)) + i16::from(scale);
        let nullable = self.nullable | other.nullable;
        Kind {
            nullable,
            ..Kind::decimal(digits.clamp(1, 38) as u8, scale)
        }
    }

    /// Returns whether both types are of decimals that differ in precision or scale.
    pub(crate) fn is_other_decimal(self, other: Kind) -> bool {
        let differ = (self.precision, self.scale) != (other.precision, other.scale);
        self.is_decimal() && other.is_decimal() && differ
    }
}

/// Brings columns to one type where all are of decimals; `None` where they are as they should be. Refused as
/// `CastOutOfRange` at the first row of the first column that has more digits than the type.
pub(crate) fn at_one_type(columns: &[&Column]) -> Result<Option<Vec<Column>>, Error> {
    let mut kinds = columns.iter().map(|column| column.kind());
    let Some(first) = kinds.next() else {
        return Ok(None);
    };
    let is_one_type = !kinds.clone().any(|kind| first.is_other_decimal(kind));
    if is_one_type || !(first.is_decimal() && kinds.clone().all(Kind::is_decimal)) {
        return Ok(None);
    }
    let kind = kinds.fold(first, Kind::common_decimal);
    let made = columns.iter().map(|column| column.as_decimals(kind));
    made.collect::<Result<_, _>>().map(Some)
}

impl Column {
    /// Brings both columns of decimals to one type.
    pub(crate) fn aligned(&self, right: &Column) -> Result<(Column, Column), Error> {
        let kind = self.kind().common_decimal(right.kind());
        Ok((self.as_decimals(kind)?, right.as_decimals(kind)?))
    }

    /// Compares decimals of two types as the exact numbers that they are: by a comparison of columns of one type, or,
    /// where 38 digits do not hold both at one scale, by the runs of both.
    pub(crate) fn compared_exactly(
        &self,
        operator: Operator,
        right: &Column,
        compare: impl FnOnce(&Column, &Column) -> Result<Column, Error>,
    ) -> Result<Column, Error> {
        check_lengths(self, right)?;
        match self.aligned(right) {
            Ok((left, right)) => compare(&left, &right),
            Err(error) if error.kind() == Some(ErrorKind::CastOutOfRange) => {
                self.compared_apart(operator, right)
            }
            Err(error) => Err(error),
        }
    }

    /// Compares them in runs, or in a constant where both columns are constants that have a row.
    fn compared_apart(&self, operator: Operator, right: &Column) -> Result<Column, Error> {
        let kind = Kind {
            nullable: self.kind().nullable | right.kind().nullable,
            ..Kind::BOOL
        };
        let mask = compared_runs(self, operator, right, kind)?;
        let are_constants = self.form() == Form::Constant && right.form() == Form::Constant;
        match are_constants && !mask.is_empty() {
            true => Column::constant(kind, mask.at(0)?, mask.len()),
            false => Ok(mask),
        }
    }

    /// Returns the same decimals in the precision and scale of a type, in the form of the column.
    fn as_decimals(&self, kind: Kind) -> Result<Column, Error> {
        if !self.kind().is_other_decimal(kind) {
            return self.try_clone();
        }
        let made = self.scaled(kind)?;
        match self.form() {
            Form::Constant if !made.is_empty() => {
                Column::constant(made.kind(), made.at(0)?, made.len())
            }
            Form::Runs => Ok(made),
            _ => made.decode(),
        }
    }
}

/// Refuses two columns as `ColumnLength` unless they have as many rows.
pub(crate) fn check_lengths(left: &Column, right: &Column) -> Result<(), Error> {
    match left.len() == right.len() {
        true => Ok(()),
        false => Err(Error::lengths(left.len(), right.len())),
    }
}

/// Compares two columns of as many rows by the runs of both.
fn compared_runs(
    left: &Column,
    operator: Operator,
    right: &Column,
    kind: Kind,
) -> Result<Column, Error> {
    let (mut lefts, mut rights) = (left.runs()?, right.runs()?);
    let (mut one, mut other): (Option<Run>, Option<Run>) = (None, None);
    let (mut builder, mut row) = (Builder::new(kind)?, 0);
    while row < left.len() {
        one = reaching(one, row, &mut lefts)?;
        other = reaching(other, row, &mut rights)?;
        let (Some(first), Some(second)) = (&one, &other) else {
            return Err(Error::lengths(left.len(), right.len()));
        };
        let stop = first.rows.end.min(second.rows.end);
        let truth = match (first.value.number(), second.value.number()) {
            (Some(first), Some(second)) => Value::Truth(operator.holds(first.cmp(&second))),
            _ => Value::Null,
        };
        builder.append_value(truth, stop - row)?;
        row = stop;
    }
    builder.finish()
}
