//! The cases of tables that each language answers (examples/corpus/table_cases.txt). An answer that differs fails, unless
//! known_differences.txt lists it; what is listed there has to differ as it says.
use hivevigil::{
    Builder, Column, Decimal, Error, Fold, Kind, Operator, Order, SaveOptions, Table, TableError,
    Value,
};
use std::collections::BTreeMap;
use std::path::Path;

const ESCAPES: [(char, char); 5] = [
    ('s', ' '),
    ('n', '\n'),
    ('"', '"'),
    ('\\', '\\'),
    ('0', '\0'),
];
type Words<'a> = [&'a str];

// ---- Words ----

fn text_of(word: &str) -> String {
    let Some(quoted) = word
        .strip_prefix('"')
        .and_then(|rest| rest.strip_suffix('"'))
    else {
        return word.to_string();
    };
    let (mut text, mut letters) = (String::new(), quoted.chars());
    while let Some(letter) = letters.next() {
        let escaped = (letter == '\\').then(|| letters.next()).flatten();
        let found = escaped.and_then(|short| ESCAPES.iter().find(|(known, _)| *known == short));
        text.push(found.map_or(letter, |(_, letter)| *letter));
    }
    text
}

fn word_of(text: &str) -> String {
    let escaped =
        text.chars().map(
            |letter| match ESCAPES.iter().find(|(_, known)| *known == letter) {
                Some((short, _)) => format!("\\{short}"),
                None => letter.to_string(),
            },
        );
    format!("\"{}\"", escaped.collect::<String>())
}

fn bytes_of(word: &str) -> Vec<u8> {
    let digits = |at: usize| u8::from_str_radix(&word[at..at + 2], 16).unwrap();
    (1..word.len()).step_by(2).map(digits).collect()
}

fn hex_of(bytes: &[u8]) -> String {
    let digits: String = bytes.iter().map(|byte| format!("{byte:02X}")).collect();
    format!("x{digits}")
}

fn decimal_of(word: &str) -> Value {
    let places = word.split_once('.').map_or(0, |(_, places)| places.len());
    Value::Decimal(Decimal::new(
        word.replace('.', "").parse().unwrap(),
        places as i8,
    ))
}

/// Reads what rows are compared with; `+5` and `-5` are of a type with sign.
fn threshold_of(word: &str) -> Value {
    match word {
        "null" => Value::Null,
        "true" | "false" => Value::Truth(word == "true"),
        _ if word.starts_with('"') => Value::Text(text_of(word)),
        _ if word.starts_with('x') => Value::Bytes(bytes_of(word)),
        _ if word.ends_with('d') => decimal_of(&word[..word.len() - 1]),
        _ if word.contains(['.', 'n', 'i']) => Value::Float(float_of(word)),
        _ => match word.parse() {
            Ok(item) if !word.starts_with('+') => Value::Unsigned(item),
            _ => Value::Signed(word.parse().unwrap()),
        },
    }
}

fn float_of(word: &str) -> f64 {
    match word {
        "nan" => f64::from_bits(0x7ff8_0000_0000_0000),
        "-nan" => f64::from_bits(0xfff8_0000_0000_0000),
        _ => word.parse().unwrap(),
    }
}

fn shown_float(number: f64) -> String {
    match number.is_nan() {
        true if number.is_sign_negative() => "-nan".to_string(),
        true => "nan".to_string(),
        false => format!("{number:?}"),
    }
}

fn shown_value(value: &Value) -> String {
    match value {
        Value::Text(text) => word_of(text),
        Value::Bytes(bytes) => hex_of(bytes),
        Value::Float(number) => shown_float(*number),
        other => other.to_string(),
    }
}

// ---- Columns and tables ----

struct Type<'a> {
    kind: Kind,
    format: &'a str,
    is_list: bool,
}

fn type_of(word: &str) -> Type<'_> {
    let (name, format) = word.split_once(':').unwrap_or((word, ""));
    let (name, nullable) = name.strip_suffix('?').map_or((name, 0), |name| (name, 1));
    let items = name
        .strip_prefix("list(")
        .map(|items| &items[..items.len() - 1]);
    let (name, format) = match items.unwrap_or(name) {
        "f32" => ("i32", "f"),
        "f64" => ("i64", "g"),
        other => (other, format),
    };
    let plain = Kind::PLAIN.iter().find(|kind| kind.to_string() == name);
    let kind = plain.copied().unwrap_or_else(|| {
        let (precision, scale) = name[8..name.len() - 1].split_once(',').unwrap();
        Kind::decimal(precision.parse().unwrap(), scale.parse().unwrap())
    });
    let (kind, is_list) = (Kind { nullable, ..kind }, items.is_some());
    Type {
        kind,
        format,
        is_list,
    }
}

fn key_of(bits: u64, width: u32) -> i64 {
    let sign = 1u64 << (width - 1);
    if bits < sign {
        bits as i64
    } else {
        -1 - (bits - sign) as i64
    }
}

fn value_of(word: &str, of: &Type) -> Value {
    match of.format {
        "g" if word.contains(['.', 'n', 'i']) && word != "null" => {
            Value::Signed(key_of(float_of(word).to_bits(), 64))
        }
        "f" if word.contains(['.', 'n', 'i']) && word != "null" => {
            Value::Signed(key_of((float_of(word) as f32).to_bits().into(), 32))
        }
        _ if of.kind.is_decimal() && word != "null" => decimal_of(word),
        _ => threshold_of(word),
    }
}

/// Reads lists from their message, which is put together from those of their parts.
fn lists_of(kind: Kind, rows: &Words) -> Result<Column, Error> {
    let item = Type {
        kind: kind.not_nullable(),
        format: "",
        is_list: false,
    };
    let (mut items, mut offsets, mut sizes, mut valid) =
        (Builder::new(item.kind)?, vec![], vec![], vec![]);
    for (place, row) in rows.iter().enumerate() {
        let words = row
            .trim_matches(|letter| letter == '[' || letter == ']')
            .split(',');
        let words: Vec<&str> = words
            .filter(|word| !word.is_empty() && *row != "null")
            .collect();
        offsets.push(items.len() as u64);
        sizes.push(words.len() as u64);
        valid.push((place, *row != "null"));
        words
            .into_iter()
            .try_for_each(|word| items.append_value(value_of(word, &item), 1))?;
    }
    let bits = valid.iter().fold(0u8, |bits, (place, is_valid)| {
        bits | u8::from(*is_valid) << place
    });
    let validity: &[u8] = match kind.is_nullable() {
        true if rows.is_empty() => &[0x28, 2],
        true => &[0x28, 4, 0x32, 1, bits],
        false => &[0x28, 1],
    };
    let mut message = [&[8, 1, 16, 13, 24, 4, 32, rows.len() as u8], validity].concat();
    for (key, part) in [
        (0x8a, items.finish()?.decode()?),
        (0x92, Column::new(&offsets)?),
        (0x9a, Column::new(&sizes)?),
    ] {
        let part = part.to_bytes()?;
        message.extend([key, 1, part.len() as u8]);
        message.extend(part);
    }
    Column::from_bytes(&message)
}

fn column_of(words: &Words) -> Result<Column, Error> {
    let of = type_of(words[0]);
    match words.get(1) {
        _ if of.is_list => lists_of(of.kind, &words[1..]),
        Some(&"constant") => {
            Column::constant(of.kind, value_of(words[2], &of), words[3].parse().unwrap())
        }
        form => {
            let (is_runs, mut builder) = (form == Some(&"runs"), Builder::new(of.kind)?);
            for word in &words[if is_runs { 2 } else { 1 }..] {
                builder.append_value(value_of(word, &of), 1)?;
            }
            let runs = builder.finish()?;
            if is_runs {
                Ok(runs)
            } else {
                runs.decode()
            }
        }
    }
}

fn table_of(lines: &[Vec<&str>]) -> Result<Table, TableError> {
    if let (1, Some(rows)) = (lines.len(), lines[0].get(1)) {
        return Ok(Table::without_columns(rows.parse().unwrap()));
    }
    let columns = lines[1..]
        .iter()
        .map(|words| Ok((text_of(words[1]), column_of(&words[2..])?)));
    let mut table = Table::try_from_iter(columns.collect::<Result<Vec<_>, Error>>()?)?;
    for words in &lines[1..] {
        table = table.with_logical_type(&text_of(words[1]), type_of(words[2]).format)?;
    }
    Ok(table)
}

fn shown_table(table: &Table) -> Result<String, TableError> {
    let rows = if table.is_empty() {
        format!(" {}", table.rows())
    } else {
        String::new()
    };
    let mut text = format!("table{rows}");
    for (name, column) in table {
        let (kind, format) = (column.kind(), column.logical_type().unwrap_or_default());
        let (width, float) = match (kind.not_nullable(), format.as_str()) {
            (Kind::I32, "f") => (32, "f32"),
            (Kind::I64, "g") => (64, "f64"),
            _ => (0, ""),
        };
        let null = if kind.is_nullable() { "?" } else { "" };
        let mut of = if width > 0 {
            format!("{float}{null}")
        } else {
            kind.to_string().replace(' ', "")
        };
        if width == 0 && !format.is_empty() {
            of = format!("{of}:{format}");
        }
        let is_word = !name.is_empty()
            && name
                .chars()
                .all(|letter| letter.is_ascii_alphanumeric() || letter == '_');
        text += &format!(
            " ; column {} {of}",
            if is_word {
                name.to_string()
            } else {
                word_of(name)
            }
        );
        for row in 0..if kind.is_list() { 0 } else { table.rows() } {
            text += &format!(" {}", shown_value(&column.at(row)?));
        }
    }
    Ok(text)
}

// ---- Calls ----

fn sorted(table: &Table, words: &Words) -> Result<Table, TableError> {
    let Some((first, others)) = words
        .chunks(3)
        .map(|key| (text_of(key[0]), key))
        .collect::<Vec<_>>()
        .split_first()
        .map(|((first, key), others)| ((Order::by(first.clone()), *key), others.to_vec()))
    else {
        return table.sort(words);
    };
    let with = |order: Order, key: &Words| {
        let order = if key[1] == "descending" {
            order.descending()
        } else {
            order
        };
        if key[2] == "last" {
            order.nulls_last()
        } else {
            order
        }
    };
    let order = others
        .iter()
        .fold(with(first.0, first.1), |order, (name, key)| {
            with(order.then(name.clone()), key)
        });
    table.sort_by(&order)
}

fn grouped(table: &Table, words: &Words) -> Result<Table, TableError> {
    const FOLDS: [(&str, Fold); 7] = [
        ("sum", Fold::Sum),
        ("rows", Fold::Rows),
        ("count", Fold::Count),
        ("least", Fold::Least),
        ("greatest", Fold::Greatest),
        ("first", Fold::First),
        ("last", Fold::Last),
    ];
    let mut parts = words.split(|word| *word == "/");
    let keys: Vec<String> = parts
        .next()
        .unwrap_or(&[])
        .iter()
        .map(|word| text_of(word))
        .collect();
    let asked: Vec<(String, String, Fold)> = parts
        .map(|part| {
            let fold = FOLDS.iter().find(|(word, _)| *word == part[1]).unwrap().1;
            // the rows are counted of any column
            let of = part.get(2).map_or_else(
                || table.names().next().unwrap_or("").to_string(),
                |word| text_of(word),
            );
            (text_of(part[0]), of, fold)
        })
        .collect();
    table.group_by(&keys)?.agg(
        asked
            .iter()
            .map(|(name, of, fold)| (&name[..], &of[..], *fold)),
    )
}

fn operator_of(word: &str) -> Operator {
    match word {
        "==" => Operator::Equal,
        "!=" => Operator::NotEqual,
        ">" => Operator::Greater,
        ">=" => Operator::GreaterOrEqual,
        "<" => Operator::Less,
        _ => Operator::LessOrEqual,
    }
}

/// Answers what is asked of a column: its sum, how many rows are not null, its least or its greatest row.
fn column_answer(table: &Table, name: &str, call: &str) -> Result<String, TableError> {
    let column = table.column(name)?;
    if call == "count" {
        return Ok((column.len() - column.null_count()).to_string());
    }
    Ok(shown_value(&match call {
        "min" => column.least()?,
        "max" => column.greatest()?,
        _ => column.sum()?.total,
    }))
}

/// Says what a call answers: a table, or a word.
fn answered(
    call: &str,
    tables: &[Table],
    words: &Words,
) -> Result<Result<Table, String>, TableError> {
    let none = Table::without_columns(0);
    let (table, names) = (
        tables.first().unwrap_or(&none),
        words.iter().map(|word| text_of(word)).collect::<Vec<_>>(),
    );
    let path = std::env::temp_dir().join(format!("table_cases_of_rust_{}.hv", std::process::id()));
    Ok(Ok(match call {
        "table" => table.try_clone()?,
        "slice" => table.slice(words[0].parse::<usize>().unwrap()..words[1].parse().unwrap())?,
        "take" => table.take(&column_of(words)?)?,
        "filter" => table.filter(&column_of(words)?)?,
        "filter_by" => table.filter_by(&names[0], operator_of(words[1]), threshold_of(words[2]))?,
        "append" => table.append(&tables[1])?,
        "sort" => sorted(table, words)?,
        "group_by" => grouped(table, words)?,
        "select" => table.select(&names)?,
        "drop" => table.without(&names)?,
        "rename" => table.rename([(&names[0][..], &names[1][..])])?,
        "put" => {
            let put = table.with_column(&names[0], column_of(&words[1..])?)?;
            put.with_logical_type(&names[0], type_of(words[1]).format)?
        }
        "from_bytes" => Table::from_bytes(&bytes_of(words[0]))?,
        "load" => {
            table.save(&path)?;
            Table::load_columns(&path, &names)?
        }
        "may_have" => {
            table.save(&path)?;
            let found = Table::footer(&path)?.may_have(
                &names[0],
                operator_of(words[1]),
                threshold_of(words[2]),
            )?;
            return Ok(Err(found.to_string()));
        }
        "equals" => return Ok(Err(table.same_rows(&tables[1])?.to_string())),
        "to_bytes" => {
            let differences = !words.is_empty();
            return Ok(Err(hex_of(
                &table.to_bytes_with(SaveOptions { differences })?,
            )));
        }
        _ => return Ok(Err(column_answer(table, &names[0], call)?)),
    }))
}

/// Writes the number of a refusal, with the fields that are asked for, if the refusal has fields.
fn refused(error: &TableError, wanted: &str) -> String {
    let of = |error: &Error| {
        (
            error.number,
            Some(vec![
                error.fields.first,
                error.fields.second,
                error.fields.third,
            ]),
        )
    };
    let (number, fields) = match error {
        TableError::Refused(error) | TableError::Column { error, .. } => of(error),
        TableError::UnevenRows { rows, expected, .. } => {
            (11, Some(vec![*expected as u64, *rows as u64]))
        }
        TableError::NoSuchColumn { .. } => (201, None),
        TableError::RepeatedName(_) => (202, None),
        TableError::OtherColumns(
            hivevigil::Difference::OnlyFirst(_) | hivevigil::Difference::OnlyOther(_),
        ) => (201, None),
        TableError::OtherColumns(_) => (12, None),
        TableError::NoKeys => (13, None),
        TableError::Damaged(_) => (17, None),
        other => panic!("{other}"),
    };
    let words: Vec<&str> = wanted.split(' ').collect();
    let number = number.to_string();
    match fields {
        _ if words[0] != "refused" || words[1] != number => format!("refused {number}"),
        None => wanted.to_string(),
        Some(fields) => fields
            .iter()
            .take(words.len() - 2)
            .fold(format!("refused {number}"), |text, field| {
                format!("{text} {field}")
            }),
    }
}

// ---- Cases ----

/// Answers what a case of these lines asks; its own answer where the tables are equal.
fn answer_of(lines: &[&str], wanted: &[&str]) -> String {
    let (mut tables, mut asked) = (Vec::<Vec<Vec<&str>>>::new(), Vec::new());
    for line in lines {
        let words: Vec<&str> = line.split(' ').collect();
        match words[0] {
            "table" => tables.push(vec![words]),
            "column" => tables.last_mut().unwrap().push(words),
            _ => asked = words,
        }
    }
    let text = wanted.join(" ; ");
    let made: Result<Vec<Table>, TableError> = tables.iter().map(|lines| table_of(lines)).collect();
    match made.and_then(|tables| answered(asked[1], &tables, &asked[2..])) {
        Ok(Err(word)) => word,
        Ok(Ok(table)) => {
            let words: Vec<Vec<&str>> = wanted
                .iter()
                .map(|line| line.split(' ').collect())
                .collect();
            let is_same =
                words[0][0] == "table" && table_of(&words).map_or(false, |due| due == table);
            if is_same {
                text
            } else {
                shown_table(&table).unwrap()
            }
        }
        Err(error) => refused(&error, &text),
    }
}

#[test]
fn cases_have_their_answers() {
    let corpus = Path::new(env!("CARGO_MANIFEST_DIR")).join("../examples/corpus");
    let read = |name: &str| std::fs::read_to_string(corpus.join(name)).unwrap();
    let (cases, listed) = (read("table_cases.txt"), read("known_differences.txt"));
    let mut known: BTreeMap<&str, &str> = listed
        .lines()
        .filter_map(|line| line.strip_prefix("rust ")?.split_once(' '))
        .collect();
    let (mut agree, mut wrong) = (0, Vec::new());
    for part in cases.split("\n\n").filter(|part| part.starts_with("case ")) {
        let lines: Vec<&str> = part.lines().collect();
        let end = lines
            .iter()
            .position(|line| line.starts_with("answer "))
            .unwrap();
        let (name, mut wanted) = (&lines[0][5..], lines[end..].to_vec());
        wanted[0] = &wanted[0][7..];
        let (text, listed) = (wanted.join(" ; "), known.remove(name));
        let found = answer_of(&lines[1..end], &wanted);
        agree += usize::from(found == text);
        if found != listed.unwrap_or(&text) || listed == Some(&text) {
            wrong.push(format!("rust {name} {found}\n    should be {text}"));
        }
    }
    assert!(
        wrong.is_empty() && known.is_empty(),
        "{}\nthere are no cases {known:?}",
        wrong.join("\n")
    );
    println!("{agree} cases agree");
}
