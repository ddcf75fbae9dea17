//! Floats cast to another format, and from and to integers, against Rust's own `as`.
use hivevigil::{Column, ErrorKind, Floats};

fn doubles() -> Vec<Option<f64>> {
    let numbers = [
        0.0,
        -0.0,
        0.1,
        1.5,
        16_777_217.0,
        1.0 + 2f64.powi(-24),
        1.0 + 3.0 * 2f64.powi(-24),
        2f64.powi(-150),
        3.0 * 2f64.powi(-150),
        3.402_823_5e38,
        3.402_823_6e38,
        f64::MAX,
        -f64::MAX,
        f64::INFINITY,
        5e-324,
    ];
    let mut rows: Vec<Option<f64>> = numbers
        .iter()
        .flat_map(|row| [Some(*row), Some(-*row)])
        .collect();
    rows.insert(5, None);
    rows
}

fn bits(rows: &[Option<f32>]) -> Vec<Option<u32>> {
    rows.iter().map(|row| row.map(f32::to_bits)).collect()
}

#[test]
fn floats_are_rounded_as_rust_rounds_them() {
    let rows = doubles();
    let due: Vec<Option<f32>> = rows
        .iter()
        .map(|row| row.map(|number| number as f32))
        .collect();
    let floats = Floats::of_options(&rows).unwrap();
    let found = floats.rounded::<f32>().unwrap();
    assert_eq!(bits(&found.options().unwrap()), bits(&due));
    assert_eq!(
        floats.cast::<f32>().err().unwrap().kind(),
        Some(ErrorKind::CastOutOfRange)
    );
    for row in rows.into_iter().flatten() {
        let one = Floats::of(&[row]).unwrap().cast::<f32>();
        assert_eq!(one.is_ok(), f64::from(row as f32) == row);
        if let Ok(one) = one {
            assert_eq!(
                one.at(0).unwrap().map(f32::to_bits),
                Some((row as f32).to_bits())
            );
        }
    }
}

#[test]
fn singles_are_doubles() {
    let rows = [
        0.1f32,
        f32::MIN_POSITIVE / 4.0,
        -0.0,
        f32::MAX,
        f32::from_bits(0xff80_0001),
    ];
    let wide = Floats::of(&rows).unwrap().cast::<f64>().unwrap();
    for (row, single) in rows.into_iter().enumerate().take(4) {
        assert_eq!(
            wide.at(row).unwrap().map(f64::to_bits),
            Some(f64::from(single).to_bits())
        );
    }
    assert_eq!(
        wide.at(4).unwrap().map(f64::to_bits),
        Some(0xfff0_0000_2000_0000)
    );
    assert_eq!(
        bits(&wide.cast::<f32>().unwrap().options().unwrap()),
        bits(&rows.map(Some))
    );
    let payload = Floats::of(&[f64::from_bits(0x7ff8_0000_0000_0001)]).unwrap();
    assert_eq!(
        payload.cast::<f32>().err().unwrap().kind(),
        Some(ErrorKind::CastOutOfRange)
    );
    assert_eq!(
        payload
            .rounded::<f32>()
            .unwrap()
            .at(0)
            .unwrap()
            .map(f32::to_bits),
        Some(0x7fc0_0000)
    );
}

#[test]
fn integers_are_floats() {
    let rows = [
        Some(0i64),
        Some(3),
        None,
        Some(-(1 << 53)),
        Some((1 << 53) + 1),
        Some(i64::MAX),
        Some(i64::MIN),
    ];
    let column = Column::try_from(&rows[..]).unwrap();
    let due: Vec<Option<f64>> = rows
        .iter()
        .map(|row| row.map(|number| number as f64))
        .collect();
    assert_eq!(
        Floats::<f64>::of_rounded_integers(&column)
            .unwrap()
            .options()
            .unwrap(),
        due
    );
    let refused = Floats::<f64>::of_integers(&column).err().unwrap();
    assert_eq!(refused.kind(), Some(ErrorKind::CastOutOfRange));
    let exact = Column::try_from(&rows[..4]).unwrap();
    let floats = Floats::<f64>::of_integers(&exact).unwrap();
    assert_eq!(floats.options().unwrap(), due[..4]);
    assert_eq!(
        floats
            .to_integers::<i64>()
            .unwrap()
            .decode()
            .unwrap()
            .options::<i64>()
            .unwrap(),
        rows[..4]
    );
    assert_eq!(
        floats.to_integers::<i8>().err().unwrap().kind(),
        Some(ErrorKind::CastOutOfRange)
    );
    let texts = Column::try_from(["4"]).unwrap();
    assert_eq!(
        Floats::<f32>::of_integers(&texts).err().unwrap().kind(),
        Some(ErrorKind::TypeMismatch)
    );
}

#[test]
fn floats_that_are_no_integers() {
    for row in [0.5f64, f64::NAN, f64::INFINITY, 256.0, -1.0] {
        let refused = Floats::of(&[row])
            .unwrap()
            .to_integers::<u8>()
            .err()
            .unwrap();
        assert_eq!(refused.kind(), Some(ErrorKind::CastOutOfRange));
    }
    let zero = Floats::of(&[-0.0f32, 255.0])
        .unwrap()
        .to_integers::<u8>()
        .unwrap();
    assert_eq!(zero.decode().unwrap().numbers::<u8>().unwrap(), [0, 255]);
}

/// Asks for the row and its value in each sentence, also after rows that fit and in long runs.
#[test]
fn refusals_name_the_first_row() {
    let sentence = |error: Option<hivevigil::Error>| error.unwrap().to_string();
    let mut rows = vec![Some(1.5f64); 1000];
    rows[10] = None;
    rows[700..].fill(Some(0.1));
    rows[900] = Some(1e300);
    let floats = Floats::of_options(&rows).unwrap();
    assert_eq!(
        sentence(floats.cast::<f32>().err()),
        "row 700 is 0.1, which does not fit float32"
    );
    assert_eq!(
        sentence(floats.to_integers::<u8>().err()),
        "row 0 is 1.5, which does not fit u8"
    );
    let large = Floats::of(&[-0.0f32, 255.0, -1.0, 0.5]).unwrap();
    assert_eq!(
        sentence(large.to_integers::<u8>().err()),
        "row 2 is -1.0, which does not fit u8"
    );
    let nan = Floats::of(&[f64::NAN, f64::from_bits(0x7ff8_0000_0000_0001)]).unwrap();
    assert_eq!(
        sentence(nan.cast::<f32>().err()),
        "row 1 is a NaN with a payload, which does not fit float32"
    );
    assert_eq!(
        sentence(nan.to_integers::<u8>().err()),
        "row 0 is NaN, which does not fit u8"
    );
    let integers = Column::try_from(&[Some(1i64 << 24), None, Some((1 << 24) + 1)]).unwrap();
    assert_eq!(
        sentence(Floats::<f32>::of_integers(&integers).err()),
        "row 2 is 16777217, which does not fit float32"
    );
    let wide = Column::try_from([u64::MAX]).unwrap();
    assert_eq!(
        sentence(Floats::<f64>::of_integers(&wide).err()),
        "row 0 is 18446744073709551615, which does not fit float64"
    );
}

#[test]
fn keys_of_another_width_are_refused_by_both_types() {
    let refused = Floats::<f32>::of_keys(Column::try_from([Some(4i64), None]).unwrap());
    let said = "i64 rows are not keys of these floats, which are i32";
    assert_eq!(refused.err().unwrap().to_string(), said);
}
