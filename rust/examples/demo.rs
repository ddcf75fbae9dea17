//! Encodes rows, asks for them, and meets a refusal.
use hivevigil::{Column, Error, Operator};

fn main() -> Result<(), Error> {
    let runs = Column::try_from(&[4i64, 4, 4, 7, 7, 9, 9, 9, 9])?.encode()?;
    println!("{} rows in {} runs", runs.len(), runs.ends()?.len());
    let above = runs.compare_value(Operator::Greater, 4)?.decode()?;
    println!("rows above 4: {:?}", runs.filter(&above)?.sum()?);
    match runs.slice(2..12) {
        Ok(_) => unreachable!("there are 9 rows"),
        Err(error) => println!("refused: {error}"),
    }
    Ok(())
}
