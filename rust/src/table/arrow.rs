//! Tables in and out of Arrow: a batch is an array of structs, a table a stream of batches.
use super::floats::{bits, has_floats, is_float, keys};
use super::{refuse_twice, Table, TableError};
use crate::arrow::{
    ArrowArray, ArrowArrayStream, ArrowError, ArrowOptions, ArrowSchema, Flaw, Reading,
};
use crate::Column;

/// Tables out of batches of Arrow, whose shown rows are copied, and as such batches.
impl Table {
    /// Writes the table as one batch: an array of structs that has a child for each column, as it lies and in the
    /// format of its logical type; floats as floats. Refused as `Arrow`, also for a table without columns.
    ///
    /// ```
    /// use hivevigil::{Column, Table};
    /// let days = Column::new(&[19_783i32, 19_783, 19_784])?.encode()?;
    /// let table = Table::try_from_iter([("day", days)])?.with_logical_type("day", "tdD")?;
    /// let (schema, batch) = table.to_arrow()?;
    /// assert_eq!((schema.format(), batch.len()), ("+s", 3));
    /// assert_eq!(schema.child(0).and_then(|day| day.value_format()), Some("tdD"));
    /// assert_eq!(unsafe { Table::from_arrow(&schema, &batch)? }, table);
    /// # Ok::<(), hivevigil::TableError>(())
    /// ```
    pub fn to_arrow(&self) -> Result<(ArrowSchema, ArrowArray), TableError> {
        let mut stream = self.to_arrow_stream(0)?;
        let (schema, batch) = (stream.schema()?, stream.next_array()?);
        Ok((schema, batch.ok_or(ArrowError::Invalid(Flaw::Released))?))
    }

    /// Writes the table as a stream of batches of `batch_rows` rows, the last one of what is left, or of one batch
    /// where it is 0; refused as [`Table::to_arrow`].
    pub fn to_arrow_stream(&self, batch_rows: usize) -> Result<ArrowArrayStream, TableError> {
        let mut parts = Vec::new();
        for (name, column) in self {
            let bits_of_float = has_floats(column);
            let sent = match bits_of_float {
                true => bits(column),
                false => column.try_clone(),
            };
            let sent = sent.map_err(TableError::of(name))?;
            parts.push((name, column.logical_type(), sent, bits_of_float));
        }
        let columns = parts.iter().map(|(name, format, column, bits_of_float)| {
            let options = ArrowOptions {
                bits_of_float: *bits_of_float,
                format: format.as_deref(),
                ..ArrowOptions::default()
            };
            (*name, column, options)
        });
        let columns: Vec<_> = columns.collect();
        Ok(ArrowArrayStream::of_batches(&columns, batch_rows)?)
    }

    /// Copies the rows of a batch: dates, times and so on as integers with their format as logical type, floats as
    /// such. Refused as `Arrow` where the array is not one of structs or not served, and as `RepeatedName`.
    ///
    /// # Safety
    /// Same as for [`Column::from_arrow`].
    pub unsafe fn from_arrow(
        schema: &ArrowSchema,
        batch: &ArrowArray,
    ) -> Result<Table, TableError> {
        let formats = formats_of(schema)?;
        let columns = formats.iter().enumerate().map(|(child, (_, format))| {
            let column = match is_float(format) {
                true => Column::from_arrow_child_bits(schema, batch, child)?,
                false => Column::from_arrow_child(schema, batch, child)?,
            };
            Ok(Some(column))
        });
        let columns = columns.collect::<Result<Vec<_>, ArrowError>>()?;
        of_columns(formats, columns, batch.len())
    }

    /// Copies the rows of all batches of a stream, as [`Table::from_arrow`] those of one.
    ///
    /// ```
    /// use hivevigil::{Column, Table};
    /// let table = Table::try_from_iter([("level", Column::new(&[900i32, 40, 41])?)])?;
    /// assert_eq!(Table::from_arrow_stream(table.to_arrow_stream(2)?)?, table);
    /// # Ok::<(), hivevigil::TableError>(())
    /// ```
    pub fn from_arrow_stream(mut stream: ArrowArrayStream) -> Result<Table, TableError> {
        let formats = formats_of(&stream.schema()?)?;
        let how = formats.iter().map(|(_, format)| match is_float(format) {
            true => Reading::Bits,
            false => Reading::Rows,
        });
        let columns = stream.into_columns(&how.collect::<Vec<_>>())?;
        let rows = columns.iter().flatten().next().map_or(0, Column::len);
        of_columns(formats, columns, rows)
    }
}

/// Lists the names of a batch's columns, each with the format of its values.
fn formats_of(schema: &ArrowSchema) -> Result<Vec<(String, String)>, TableError> {
    if schema.format() != "+s" || schema.is_released() {
        return Err(ArrowError::Invalid(Flaw::Parts).into());
    }
    let children = (0..schema.child_count()).map(|place| {
        let child = schema
            .child(place)
            .ok_or(ArrowError::Invalid(Flaw::NoPointer))?;
        let format = child.value_format().unwrap_or("");
        Ok((child.name().to_string(), format.to_string()))
    });
    let formats = children.collect::<Result<Vec<_>, ArrowError>>()?;
    refuse_twice(formats.iter().map(|(name, _)| name.as_str()))?;
    Ok(formats)
}

/// Makes a table of what came in, floats by their bits.
fn of_columns(
    formats: Vec<(String, String)>,
    columns: Vec<Option<Column>>,
    rows: usize,
) -> Result<Table, TableError> {
    let pairs = formats.into_iter().zip(columns.into_iter().flatten());
    let columns = pairs.map(|((name, format), column)| {
        let column = match &format {
            format if is_float(format) => {
                keys(&column).and_then(|keys| keys.with_logical_type(format))
            }
            format if format.starts_with('t') => column.with_logical_type(format),
            _ => Ok(column),
        };
        let column = column.map_err(TableError::of(&name))?;
        Ok((name, column))
    });
    Table::of(&columns.collect::<Result<Vec<_>, TableError>>()?, rows)
}
