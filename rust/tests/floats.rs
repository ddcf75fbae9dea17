//! Floats by their bits, against Rust's own.
use hivevigil::{Column, ErrorKind, Float, FloatOrder, Floats, Operator, Value};

const SIGNS: [Operator; 6] = [
    Operator::Equal,
    Operator::NotEqual,
    Operator::Greater,
    Operator::GreaterOrEqual,
    Operator::Less,
    Operator::LessOrEqual,
];

fn odd() -> Vec<Option<f64>> {
    let payload = f64::from_bits(0xfff0_0000_0000_beef);
    let numbers = [
        0.0,
        -0.0,
        5e-324,
        1.0,
        -1.5,
        f64::MAX,
        f64::INFINITY,
        f64::NEG_INFINITY,
        f64::NAN,
        payload,
    ];
    let mut rows: Vec<Option<f64>> = numbers
        .iter()
        .flat_map(|number| [Some(*number); 2])
        .collect();
    rows.insert(3, None);
    rows
}

fn ieee(operator: Operator, left: f64, right: f64) -> bool {
    match operator {
        Operator::Equal => left == right,
        Operator::NotEqual => left != right,
        Operator::Greater => left > right,
        Operator::GreaterOrEqual => left >= right,
        Operator::Less => left < right,
        Operator::LessOrEqual => left <= right,
    }
}

fn total(operator: Operator, left: f64, right: f64) -> bool {
    let order = left.total_cmp(&right);
    match operator {
        Operator::Equal => order.is_eq(),
        Operator::NotEqual => order.is_ne(),
        Operator::Greater => order.is_gt(),
        Operator::GreaterOrEqual => order.is_ge(),
        Operator::Less => order.is_lt(),
        Operator::LessOrEqual => order.is_le(),
    }
}

fn bits(rows: &[Option<f64>]) -> Vec<Option<u64>> {
    rows.iter().map(|row| row.map(f64::to_bits)).collect()
}

#[test]
fn rows_come_back_bit_by_bit() {
    let rows = odd();
    let floats = Floats::of_options(&rows).unwrap();
    assert_eq!(bits(&floats.options().unwrap()), bits(&rows));
    let single: Vec<Option<f64>> = (0..floats.len())
        .map(|row| floats.at(row).unwrap())
        .collect();
    assert_eq!(bits(&single), bits(&rows));
    assert_eq!(
        floats.at(rows.len()).unwrap_err().kind(),
        Some(ErrorKind::OutOfBounds)
    );
    assert!(Floats::<f32>::of(&[]).unwrap().is_empty());
}

#[test]
fn rows_compare_as_numbers_and_in_the_total_order() {
    let rows = odd();
    let floats = Floats::of_options(&rows).unwrap();
    for (operator, right) in SIGNS
        .iter()
        .flat_map(|sign| rows.iter().flatten().map(|row| (*sign, *row)))
    {
        let numbers = floats.compare(operator, right).unwrap();
        let all = floats
            .compare_in(operator, right, FloatOrder::Total)
            .unwrap();
        for (row, left) in rows.iter().enumerate() {
            let due = |holds: fn(Operator, f64, f64) -> bool| match left {
                Some(left) => Value::Truth(holds(operator, *left, right)),
                None => Value::Null,
            };
            assert_eq!(numbers.at(row).unwrap(), due(ieee));
            assert_eq!(all.at(row).unwrap(), due(total));
        }
    }
}

#[test]
fn the_least_and_the_greatest() {
    let floats = Floats::of_options(&odd()).unwrap();
    let numbers = floats.least_and_greatest(FloatOrder::Ieee).unwrap();
    assert_eq!(numbers, Some((f64::NEG_INFINITY, f64::INFINITY)));
    let (first, last) = floats
        .least_and_greatest(FloatOrder::Total)
        .unwrap()
        .unwrap();
    assert_eq!(
        (first.to_bits(), last.to_bits()),
        (0xfff0_0000_0000_beef, f64::NAN.to_bits())
    );
    assert_eq!(
        Floats::of(&[f32::NAN])
            .unwrap()
            .least_and_greatest(FloatOrder::Ieee)
            .unwrap(),
        None
    );
}

#[test]
fn sums_are_exact() {
    assert_eq!(
        Floats::of(&[1e100, 1.0, -1e100]).unwrap().sum().unwrap(),
        (1.0, 3)
    );
    assert_eq!(
        Floats::of(&[f64::MAX, f64::MAX]).unwrap().sum().unwrap().0,
        f64::INFINITY
    );
    assert_eq!(
        Floats::of_options(&[Some(16777216f32), None, Some(1.0)])
            .unwrap()
            .sum()
            .unwrap(),
        (16777217.0, 2)
    );
    assert!(Floats::of_options(&odd())
        .unwrap()
        .sum()
        .unwrap()
        .0
        .is_nan());
    assert!(Floats::of(&[-0.0, -0.0])
        .unwrap()
        .sum()
        .unwrap()
        .0
        .is_sign_negative());
}

#[test]
fn keys_are_a_column() {
    let floats = Floats::of(&[1.5, 1.5, -0.0]).unwrap();
    let part = floats.keys().slice(1..3).unwrap();
    assert_eq!(part.kind().not_nullable(), f64::KEYS);
    assert_eq!(
        Floats::<f64>::of_keys(part).unwrap().options().unwrap()[0],
        Some(1.5)
    );
    let wrong = Floats::<f64>::of_keys(Column::new(&[1u64]).unwrap());
    assert_eq!(
        wrong.err().and_then(|error| error.kind()),
        Some(ErrorKind::TypeMismatch)
    );
}
