//! Tables that are kept in a folder: each is shown and written once more.
//!
//!     cargo run --example tables -- FOLDER
//!
//! For each file NAME.hv that there is, NAME.again and NAME.short are the same table: the first byte for byte, where
//! the file has version 1, and in the second columns of integers are kept as differences where these are shorter.
//! NAME.groups has what is answered of the others in each group of the first column that is not of lists.
use hivevigil::{Fold, SaveOptions, Table, TableError};
use std::error::Error;
use std::path::Path;

fn write_again(path: &Path) -> Result<Table, TableError> {
    let table = Table::load(path)?;
    table.save(path.with_extension("again"))?;
    table.save_with(
        path.with_extension("short"),
        SaveOptions { differences: true },
    )?;
    Ok(table)
}

const FOLDS: [(&str, Fold); 6] = [
    ("least", Fold::Least),
    ("greatest", Fold::Greatest),
    ("first", Fold::First),
    ("last", Fold::Last),
    ("count", Fold::Count),
    ("sum", Fold::Sum),
];

fn write_groups(table: &Table, path: &Path) -> Result<(), TableError> {
    let rows = table.iter().filter(|(_, column)| !column.kind().is_list());
    let mut names = rows.map(|(name, _)| name);
    let Some(key) = names.next() else {
        return Ok(());
    };
    let mut asked = Vec::new();
    for name in names {
        let is_float = matches!(table[name].logical_type().as_deref(), Some("e" | "f" | "g"));
        for (word, fold) in FOLDS {
            if fold != Fold::Sum || is_float {
                asked.push((format!("{name} {word}"), name, fold));
            }
        }
    }
    let answers = asked
        .iter()
        .map(|(answer, name, fold)| (&answer[..], *name, *fold));
    table.group_by([key])?.agg(answers)?.save(path)
}

fn main() -> Result<(), Box<dyn Error>> {
    let folder = std::env::args().nth(1).ok_or("a folder is named")?;
    let mut tables = 0;
    for file in std::fs::read_dir(folder)? {
        let path = file?.path();
        if path
            .extension()
            .map_or(false, |extension| extension == "hv")
        {
            let table = write_again(&path)?;
            write_groups(&table, &path.with_extension("groups"))?;
            println!("{}: {table}", path.display());
            tables += 1;
        }
    }
    println!("{tables} tables are written again");
    Ok(())
}
