//! Limits of what is read of a file whose columns are kept as differences, held against plain loops over the rows; and
//! rows that are too many to be counted.
use hivevigil::{Column, Form, LoadOptions, SaveOptions, Table, TableError};

const SHORT: SaveOptions = SaveOptions { differences: true };

fn next(seed: &mut u64) -> u64 {
    *seed ^= *seed << 13;
    *seed ^= *seed >> 7;
    *seed ^= *seed << 17;
    *seed
}

/// Makes rows of steps that change now and then, some of them null.
fn random_rows(seed: &mut u64) -> Vec<Option<i32>> {
    let (mut row, mut step) = (0i32, next(seed) as i32 % 5);
    let rows = (0..200 + next(seed) % 100).map(|_| {
        if next(seed) % 40 == 0 {
            step = next(seed) as i32 % 5;
        }
        row += step;
        (next(seed) % 90 != 0).then_some(row)
    });
    rows.collect()
}

fn runs_in(rows: &[Option<i32>]) -> u64 {
    1 + rows.windows(2).filter(|pair| pair[0] != pair[1]).count() as u64
}

/// Counts what the columns take that the footer says to be kept as differences: 4 bytes a row, or 12 a run.
fn due(rows: &[(String, Form, Vec<Option<i32>>)], kept: &[&str]) -> u64 {
    let kept = rows.iter().filter(|(name, _, _)| kept.contains(&&name[..]));
    let bytes = kept.map(|(_, form, rows)| match form {
        Form::Flat => 4 * rows.len() as u64,
        _ => 12 * runs_in(rows),
    });
    bytes.sum()
}

fn check(found: Result<Table, TableError>, bytes: u64, limit: u64) {
    match found {
        Ok(_) => assert!(bytes <= limit, "{bytes} bytes within {limit}"),
        Err(TableError::OverLimit {
            bytes: found,
            limit: said,
            ..
        }) => assert_eq!((found, said, bytes > limit), (bytes, limit, true)),
        Err(other) => panic!("{other}"),
    }
}

#[test]
fn files_within_and_over_a_limit() {
    let (mut seed, mut kept_columns) = (7u64, 0);
    let path = std::env::temp_dir().join(format!("hivevigil-limits-{}.hv", std::process::id()));
    for turn in 0..60 {
        let mut rows = Vec::new();
        let first = random_rows(&mut seed);
        for place in 0..1 + next(&mut seed) % 4 {
            let mut more = random_rows(&mut seed);
            more.resize(first.len(), Some(3));
            let form = [Form::Flat, Form::Runs][(next(&mut seed) % 2) as usize];
            rows.push((format!("c{place}"), form, more));
        }
        let columns = rows.iter().map(|(name, form, rows)| {
            let flat = Column::try_from(&rows[..]).unwrap();
            let column = match form {
                Form::Flat => flat,
                _ => flat.encode().unwrap(),
            };
            (name.clone(), column)
        });
        let table = Table::try_from_iter(columns.collect::<Vec<_>>()).unwrap();
        table.save_with(&path, SHORT).unwrap();
        let footer = Table::footer(&path).unwrap();
        let kept = footer.columns.iter().filter(|column| {
            let known = column.rows.as_ref().unwrap();
            known.differences.is_some()
        });
        let kept: Vec<&str> = kept.map(|column| column.name.as_str()).collect();
        kept_columns += kept.len();
        let (all, bytes) = (due(&rows, &kept), table.to_bytes_with(SHORT).unwrap());
        for limit in [0, all.saturating_sub(1), all, all + 1, u64::MAX] {
            let options = LoadOptions { limit };
            check(Table::load_with(&path, options), all, limit);
            check(Table::from_bytes_with(&bytes, options), all, limit);
            let one = rows[turn % rows.len()].0.as_str();
            let of_one = due(
                &rows,
                &kept
                    .iter()
                    .copied()
                    .filter(|name| *name == one)
                    .collect::<Vec<_>>(),
            );
            check(
                Table::load_columns_with(&path, [one], options),
                of_one,
                limit,
            );
        }
        assert_eq!(Table::load(&path).unwrap(), table);
    }
    assert!(kept_columns > 30);
    std::fs::remove_file(&path).unwrap();
}

#[test]
fn a_few_bytes_of_many_rows_are_refused_before_any_is_made() {
    // 2^28 + 1 rows of i32, each of them one more, by docs/table.proto
    let steps = Column::constant(hivevigil::Kind::I64, 1, (1 << 28) + 1).unwrap();
    let message = steps.encode_rows().unwrap().to_bytes().unwrap();
    let bounds = Column::new(&[1i32, (1 << 28) + 1])
        .unwrap()
        .to_bytes()
        .unwrap();
    let varint = |mut number: u64| {
        let mut bytes = Vec::new();
        while number > 127 {
            bytes.push(number as u8 | 128);
            number >>= 7;
        }
        bytes.push(number as u8);
        bytes
    };
    let sized = |field: u8, content: &[u8]| {
        [
            vec![field * 8 + 2],
            varint(content.len() as u64),
            content.to_vec(),
        ]
        .concat()
    };
    let number = |field: u8, number: u64| [vec![field * 8], varint(number)].concat();
    let rows = (1u64 << 28) + 1;
    let known = [
        sized(1, b"a"),
        sized(2, b""),
        number(3, message.len() as u64),
        number(4, 0),
        number(5, rows),
        sized(6, &bounds),
        number(7, 1),
    ];
    let footer = [number(1, rows), sized(2, &known.concat())].concat();
    let size = (footer.len() as u64).to_le_bytes();
    let head = [sized(1, b"hivevigil"), number(2, 2)].concat();
    let bytes = [
        head,
        sized(3, &message),
        sized(4, &footer),
        vec![5 * 8 + 1],
        size.to_vec(),
    ]
    .concat();
    let refused = Table::from_bytes(&bytes).unwrap_err();
    let said = "the columns kept as differences take 1073741828 bytes in memory, above the limit of 1073741824";
    assert_eq!(refused.to_string(), said);
    let options = LoadOptions { limit: u64::MAX };
    assert!(matches!(
        Table::from_bytes_with(&bytes, options),
        Err(TableError::Damaged(None))
    )); // past 2^26 rows
}

#[test]
fn rows_that_64_bits_do_not_count() {
    let counts = [
        0,
        1,
        usize::MAX / 2,
        usize::MAX / 2 + 1,
        usize::MAX - 1,
        usize::MAX,
    ];
    for first in counts {
        for second in counts {
            let both = Table::without_columns(first).append(&Table::without_columns(second));
            match u64::try_from(first as u128 + second as u128) {
                Ok(rows) => assert_eq!(both.unwrap().rows() as u64, rows),
                Err(_) => {
                    let refused = both.unwrap_err();
                    assert!(matches!(&refused, TableError::Refused(error) if error.number == 5));
                    let said = "offset and length, or all rows together, are 2^64 or more";
                    assert_eq!(refused.to_string(), said);
                }
            }
        }
    }
}
