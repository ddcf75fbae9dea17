//! What a table looks like.
use super::Table;
use crate::{Column, Form, Value};
use std::fmt;

const COLUMNS: usize = 20; // that are shown
const ROWS: usize = 5;
const LETTERS: usize = 24; // of a name

/// Shows the numbers of rows and columns, and of each column its name, type, form and first rows; of lists none.
///
/// ```
/// use hivevigil::{Column, Table};
/// let stations = Column::try_from(["north", "north", "south"])?.encode_rows()?;
/// let table = Table::try_from_iter([("station", stations), ("level", Column::new(&[900i32, 901, 40])?)])?;
/// let shown = "Table: 3 rows, 2 columns\n\
///     \x20 station  utf8  in 2 runs  \"north\", \"north\", \"south\"\n\
///     \x20 level    i32   flat       900, 901, 40";
/// assert_eq!(table.to_string(), shown);
/// # Ok::<(), hivevigil::TableError>(())
/// ```
impl fmt::Display for Table {
    fn fmt(&self, formatter: &mut fmt::Formatter<'_>) -> fmt::Result {
        let (rows, columns) = (counted(self.rows(), "row"), counted(self.len(), "column"));
        write!(formatter, "Table: {rows}, {columns}")?;
        let shown = self.iter().take(COLUMNS).map(cells);
        let cells = shown.collect::<Result<Vec<[String; 4]>, fmt::Error>>()?;
        let width = |place: usize| {
            let widths = cells.iter().map(|line| line[place].chars().count());
            widths.max().unwrap_or(0)
        };
        let widths = [width(0), width(1), width(2)];
        for [name, kind, form, rows] in &cells {
            let [first, second, third] = widths;
            let line = format!("{name:first$}  {kind:second$}  {form:third$}  {rows}");
            write!(formatter, "\n  {}", line.trim_end())?;
        }
        match self.len().saturating_sub(COLUMNS) {
            0 => Ok(()),
            more => write!(formatter, "\n  and {}", counted(more, "more column")),
        }
    }
}

/// Shows the same as `Display`.
impl fmt::Debug for Table {
    fn fmt(&self, formatter: &mut fmt::Formatter<'_>) -> fmt::Result {
        fmt::Display::fmt(self, formatter)
    }
}

/// Writes name, type, form and first rows.
fn cells((name, column): (&str, &Column)) -> Result<[String; 4], fmt::Error> {
    let kind = match column.logical_type() {
        Some(format) => format!("{} {format}", column.kind()),
        None => column.kind().to_string(),
    };
    let form = match column.form() {
        Form::Flat => "flat".to_string(),
        Form::Constant => "constant".to_string(),
        Form::Lists => "lists".to_string(),
        Form::Runs if column.kind().is_list() => "in runs".to_string(),
        Form::Runs => {
            let runs = column.runs().map_err(|_| fmt::Error)?;
            format!("in {}", counted(runs.len(), "run"))
        }
    };
    Ok([short(name), kind, form, first_rows(column)?])
}

fn first_rows(column: &Column) -> Result<String, fmt::Error> {
    let count = column.len();
    if column.kind().is_list() {
        return Ok(String::new());
    }
    let rows = column.rows().take(ROWS).collect::<Result<Vec<Value>, _>>();
    let rows = rows.map_err(|_| fmt::Error)?;
    let mut words: Vec<String> = rows.iter().map(Value::to_string).collect();
    words.extend((count > ROWS).then(|| "..".to_string()));
    Ok(words.join(", "))
}

fn counted(count: usize, what: &str) -> String {
    let plural = if count == 1 { "" } else { "s" };
    format!("{count} {what}{plural}")
}

/// Writes a name in one line, and as long as there is room for.
fn short(name: &str) -> String {
    let is_plain = !name.is_empty() && name.trim() == name && !name.chars().any(char::is_control);
    let word = if is_plain {
        name.to_string()
    } else {
        format!("{name:?}")
    };
    match word.chars().count() > LETTERS {
        true => word.chars().take(LETTERS - 2).chain("..".chars()).collect(),
        false => word,
    }
}
