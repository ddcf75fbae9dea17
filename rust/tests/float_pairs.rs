//! Two columns of floats worked place by place, against Rust's own floats, bit by bit.
use hivevigil::{ErrorKind, Float, Floats};

/// Returns what two rows give.
type Due<T> = fn(T, T) -> T;

fn doubles() -> Vec<Option<f64>> {
    let numbers = [
        0.0,
        5e-324,
        2.225_073_858_507_201e-308,
        f64::MIN_POSITIVE,
        0.1,
        1.0,
        1.0 + f64::EPSILON,
        3.0,
        f64::MAX,
        f64::INFINITY,
        f64::NAN,
        f64::from_bits(0x7ff0_0000_0000_0001),
    ];
    let mut rows: Vec<Option<f64>> = numbers
        .iter()
        .flat_map(|row| [Some(*row), Some(-*row)])
        .collect();
    rows.insert(5, None);
    rows
}

fn singles() -> Vec<Option<f32>> {
    let numbers = [
        0.0,
        1e-45,
        1.175_494_2e-38,
        f32::MIN_POSITIVE,
        0.1,
        1.0,
        1.0 + f32::EPSILON,
        3.0,
        f32::MAX,
        f32::INFINITY,
        f32::NAN,
        f32::from_bits(0x7f80_0001),
    ];
    let mut rows: Vec<Option<f32>> = numbers
        .iter()
        .flat_map(|row| [Some(*row), Some(-*row)])
        .collect();
    rows.insert(5, None);
    rows
}

/// Returns the two columns of all pairs of rows, of which many are in stretches.
fn pairs<T: Float>(rows: &[Option<T>]) -> (Vec<Option<T>>, Vec<Option<T>>) {
    let lefts = rows
        .iter()
        .flat_map(|left| vec![*left; rows.len()])
        .collect();
    (lefts, rows.repeat(rows.len()))
}

fn check<T: Float>(rows: &[Option<T>], bits: fn(T) -> u64, due: [Due<T>; 4]) {
    let (lefts, rights) = pairs(rows);
    let left = Floats::of_options(&lefts).unwrap();
    let right = Floats::of_options(&rights).unwrap();
    let found = [
        left.add(&right).unwrap(),
        left.sub(&right).unwrap(),
        left.mul(&right).unwrap(),
        left.div(&right).unwrap(),
    ];
    for (found, due) in found.iter().zip(due) {
        let wanted: Vec<Option<u64>> = lefts
            .iter()
            .zip(&rights)
            .map(|(left, right)| Some(bits(due((*left)?, (*right)?))))
            .collect();
        let found: Vec<Option<u64>> = found
            .options()
            .unwrap()
            .into_iter()
            .map(|row| row.map(bits))
            .collect();
        assert_eq!(found, wanted);
    }
}

#[test]
fn doubles_give_what_rust_gives() {
    let bits = |number: f64| match number.is_nan() {
        true => 0x7ff8_0000_0000_0000,
        false => number.to_bits(),
    };
    let due: [Due<f64>; 4] = [|a, b| a + b, |a, b| a - b, |a, b| a * b, |a, b| a / b];
    check(&doubles(), bits, due);
}

#[test]
fn singles_give_what_rust_gives() {
    let bits = |number: f32| match number.is_nan() {
        true => 0x7fc0_0000,
        false => u64::from(number.to_bits()),
    };
    let due: [Due<f32>; 4] = [|a, b| a + b, |a, b| a - b, |a, b| a * b, |a, b| a / b];
    check(&singles(), bits, due);
}

#[test]
fn each_nan_is_the_one_without_sign_and_payload() {
    let nans = Floats::of(&[-f64::NAN, f64::from_bits(0xfff0_0000_0000_0001)]).unwrap();
    for row in nans.add(&nans).unwrap().options().unwrap() {
        assert_eq!(row.unwrap().to_bits(), 0x7ff8_0000_0000_0000);
    }
}

#[test]
fn constants_are_those_of_the_float() {
    for number in doubles().into_iter().flatten() {
        let floats = Floats::constant(number, 1 << 60).unwrap();
        assert_eq!(floats.at(7).unwrap().unwrap().to_bits(), number.to_bits());
    }
    let quarters = Floats::constant(0.5f32, 1 << 60).unwrap();
    let quarters = quarters.mul(&quarters).unwrap();
    assert_eq!(
        (quarters.at(5).unwrap(), quarters.len()),
        (Some(0.25), 1 << 60)
    );
    let other = Floats::constant(0.5f32, 3).unwrap();
    let refused = quarters.add(&other).map(|_| ()).unwrap_err();
    assert_eq!(refused.kind(), Some(ErrorKind::ColumnLength));
}
