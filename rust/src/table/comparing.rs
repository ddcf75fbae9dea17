//! Whether any of the rows within bounds may meet a condition.
use crate::{Column, Error, Floats, Operator, Value};

/// Returns whether `row operator value` may hold of a row between two others, the least and the greatest of a column by
/// the order of what it has: the two rows of `bounds`, which has none where each row is null. Among floats there may be
/// NaNs at either end.
pub(super) fn may_hold(bounds: &Column, operator: Operator, value: &Value) -> Result<bool, Error> {
    let (bounds, has_nan) = numbers_within(bounds)?;
    let holds = |operator: Operator| {
        let mask = bounds.compare_value(operator, value)?;
        let rows = mask.rows().map(|row| Ok(row? == Value::Truth(true)));
        rows.collect::<Result<Vec<bool>, Error>>()
    };
    Ok(match operator {
        Operator::Equal => {
            let (above, below) = (
                holds(Operator::LessOrEqual)?,
                holds(Operator::GreaterOrEqual)?,
            );
            above.first() == Some(&true) && below.last() == Some(&true)
        }
        Operator::NotEqual => {
            let is_unequal = holds(operator)?.contains(&true);
            is_unequal || (has_nan && *value != Value::Null)
        }
        _ => holds(operator)?.contains(&true),
    })
}

/// Returns the bounds of the numbers among rows, and whether some may be NaNs: numbers may reach as far as infinity
/// where a NaN is the bound, and there are none where all rows are NaNs.
fn numbers_within(bounds: &Column) -> Result<(Column, bool), Error> {
    let rows = bounds.rows().collect::<Result<Vec<Value>, Error>>()?;
    let [Value::Float(least), Value::Float(greatest)] = rows[..] else {
        return Ok((bounds.try_clone()?, false));
    };
    let low = match least.is_nan() && least.is_sign_negative() {
        true => f64::NEG_INFINITY,
        false => least,
    };
    let high = match greatest.is_nan() && greatest.is_sign_positive() {
        true => f64::INFINITY,
        false => greatest,
    };
    let numbers = match low.is_nan() || high.is_nan() {
        true => bounds.slice(..0)?,
        false => Floats::of(&[low, high])?.keys().try_clone()?,
    };
    Ok((numbers, least.is_nan() || greatest.is_nan()))
}
