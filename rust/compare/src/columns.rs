//! What the counts print: a line for each refusal, a column for each call.

use std::fmt::{self, Display};

/// The lines of some numbers, each with its count in every column.
pub fn write_columns<'a, N: Display>(
    f: &mut fmt::Formatter<'_>,
    columns: &[&str],
    rows: impl Iterator<Item = (N, &'a [u64])>,
) -> fmt::Result {
    write!(f, "refusal")?;
    for name in columns {
        write!(f, "{name:>9}")?;
    }
    writeln!(f)?;
    for (number, counts) in rows {
        write!(f, "{number:7}")?;
        for count in counts {
            write!(f, "{count:>9}")?;
        }
        writeln!(f)?;
    }
    Ok(())
}
