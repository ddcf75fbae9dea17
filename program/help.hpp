// What --help prints.
#ifndef HIVEVIGIL_PROGRAM_HELP_HPP
#define HIVEVIGIL_PROGRAM_HELP_HPP

inline constexpr char help[] = R"(Columns in runs: of CSV files, kept in files, shown and asked.

  hivevigil report FILE.csv                 what each column takes flat and in runs
  hivevigil convert FILE.csv --to FILE.hv   keeps all columns in runs, as a table
  hivevigil convert FILE.csv --column NAME --to FILE.hv
                                            keeps one column in runs
  hivevigil convert FILE.hv --to FILE.hv    keeps what was kept in another way: in
                                            order, as differences, one column
  hivevigil show FILE.hv                    its type, rows, runs, nulls and bytes
  hivevigil show FILE.hv --rows N           its first rows, a line each
  hivevigil show FILE.hv --runs             its runs: first row, row after the last, value
  hivevigil head FILE.hv                    its first 10 rows, or as many as --rows says
  hivevigil query FILE.hv                   how many rows there are, or meet conditions
  hivevigil query FILE.hv --mean NAME ..    questions about columns of a table, in a line
  hivevigil query FILE.hv --by NAME ..      the same of each group of equal rows, a line each
  hivevigil query FILE.hv QUESTION          sum, mean, min, max, or count of rows that are not null
  hivevigil query FILE.hv filter CONDITION  the rows that meet it, a line each

A CSV file has the names in its first line, and an empty field is null. Columns
are booleans, integers, decimals, floats, dates, times, timestamps or texts, by
all of their fields. A row is printed as a field of a CSV file: null as an empty
line. A FILE to read that is - is standard input.

Of a table, show and query take --column NAME, to show or ask that column, and
a CONDITION has the name of a column in front: 'level > 4'. Rows of a table are
printed as a CSV file with the names in its first line.

Options:
  --column NAME      the column that is kept; of a table the one that is shown
                     or asked
  --to FILE.hv       where: the file is replaced whole, or not at all
  --type TYPE        its type, in place of the one that its fields have: u8 to
                     u64, i8 to i64, bool, utf8, binary (hexadecimal digits),
                     decimal(10,2), float16 to float64, date, time[us],
                     timestamp[us], timestamp[us, UTC], duration[us], with a ?
                     after it where rows may be null
  --separator MARK   divides the fields, in place of the first of , ; tab |
                     that the first line has
  --rows N           prints rows, at most N
  --from ROW         from this row on, counted from 0
  --runs             prints runs
  --where CONDITION  asks only the rows that meet it; several times: all of them
  --count NAME       asks how many rows of a column of a table are not null
  --sum NAME         asks its sum
  --mean NAME        asks its mean
  --min NAME         asks its least row
  --max NAME         asks its greatest row
  --by NAME,NAME     asks groups of rows that are equal in these columns, in
                     their order; several times: one after the other
  --sort NAME,NAME   rows of a table in order by these columns, the first first;
                     a minus in front of a name: in descending order
  --nulls last       puts null after all else in what --sort and --by sort; first
                     is where it comes without this
  --differences      keeps a table's columns of integers as differences from row
                     to row, each where that is shorter, as for times
  --limit BYTES      refuses a table whose columns that are kept as differences
                     take more bytes in memory; 1073741824 without it
  -h, --help         prints this
  --version          prints the version

A CONDITION is one argument, an operator and a value: '> 4', '= Oslo', 'ne 7'.
Operators are = != < <= > >=, or eq ne lt le gt ge. A null meets none. Dates and
times are '< 2024-03-01', '< 10:00:00', '< 2024-03-01T10:00:00', with Z or +02:00
after it where the type has a zone; a duration is a number of seconds.

The status is 0; 1 where a file or a value is not served, and 2 where the
command line is wrong, which a sentence on standard error says.
)";

#endif
