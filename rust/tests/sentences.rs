//! What refusals and columns say, and how large a refusal is.
use hivevigil::arrow::{ArrowArrayStream, ArrowError, ArrowOptions, ArrowReader, Reading};
use hivevigil::{Column, Error, ErrorKind, Table, TableError};
use std::mem::size_of;

/// Holds, since `cargo clippy` warns of each function that returns a larger refusal.
#[test]
fn refusals_are_small_and_one_is_copied() {
    assert!(
        size_of::<Error>() < 128 && size_of::<TableError>() < 128 && size_of::<ArrowError>() < 128
    );
    let error = Column::new(&[4i64]).unwrap().at(9).unwrap_err();
    let (copy, other) = (error, error);
    assert_eq!(copy, other);
}

fn floats_and_others(name: &str) -> ArrowArrayStream {
    let (levels, bits) = (
        Column::new(&[900i64, 40]).unwrap(),
        Column::new(&[0u64, 7]).unwrap(),
    );
    let as_floats = ArrowOptions {
        bits_of_float: true,
        ..ArrowOptions::default()
    };
    let columns = [
        ("level", &levels, ArrowOptions::default()),
        (name, &bits, as_floats),
    ];
    ArrowArrayStream::of_batches(&columns, 1).unwrap()
}

#[test]
fn a_column_of_floats_is_named_where_it_is_not_read() {
    let said = "column 'depth' has the format g, floats, which are read by their bits";
    let mut reader = ArrowReader::open(floats_and_others("depth")).unwrap();
    let refused = reader.next().unwrap().unwrap_err();
    assert!(
        matches!(&refused, ArrowError::Refused(error) if error.kind() == Some(ErrorKind::Unsupported))
    );
    assert_eq!(refused.to_string(), said);
    let refused = floats_and_others("depth").into_columns(&[]).unwrap_err();
    assert_eq!(refused.to_string(), said);
    let long = "the depth of the water below the station";
    let refused = floats_and_others(long).into_columns(&[]).unwrap_err();
    let said = "column 'the depth of the water b..' has the format g, floats, which are read by their bits";
    assert_eq!(refused.to_string(), said);
    for how in [Reading::Bits, Reading::LeftOut] {
        let mut reader = ArrowReader::open(floats_and_others("depth")).unwrap();
        reader.choose(1, how);
        let chunk = reader.next().unwrap().unwrap();
        assert_eq!(chunk[1].is_none(), how == Reading::LeftOut);
    }
    let bits = Column::new(&[0u64, 7]).unwrap();
    let options = ArrowOptions {
        bits_of_float: true,
        ..ArrowOptions::default()
    };
    let (schema, array) = bits.to_arrow_with("depth", &options).unwrap();
    let refused = unsafe { Column::from_arrow(&schema, &array) }.unwrap_err();
    assert_eq!(
        refused.to_string(),
        "the array has the format g, floats, which are read by their bits"
    );
}

#[test]
fn no_key_is_named() {
    let table = Table::try_from_iter([("level", Column::new(&[900i32, 40]).unwrap())]).unwrap();
    let said = "rows are sorted and grouped by at least one column";
    assert_eq!(
        table.sort(Vec::<&str>::new()).unwrap_err().to_string(),
        said
    );
    assert_eq!(
        table
            .group_by(Vec::<&str>::new())
            .map(|_| ())
            .unwrap_err()
            .to_string(),
        said
    );
}

#[test]
fn columns_show_their_first_rows() {
    let texts = Column::try_from(["a", "b"]).unwrap();
    assert_eq!(texts.to_string(), r#""a", "b""#);
    let rows: Vec<i64> = (0..9).collect();
    assert_eq!(
        Column::new(&rows).unwrap().to_string(),
        "0, 1, 2, 3, 4, 5, 6, 7 and 1 more"
    );
    assert_eq!(
        Column::new(&rows[..8]).unwrap().to_string(),
        "0, 1, 2, 3, 4, 5, 6, 7"
    );
    assert_eq!(Column::new::<i64>(&[]).unwrap().to_string(), "");
}
