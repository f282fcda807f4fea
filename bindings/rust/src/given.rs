//! Values that are handed to the library: for host variables of a script, and in rows of tables.

use crate::call::room::{BoundValues, GivenRows, NotDone, NotTaken};
use crate::refusal::{BindingFault, RoomError, RowFault};
use crate::value::{Row, Value};
use std::collections::TryReserveError;

/// A text of its own, if there is memory for it.
fn copied(text: &str) -> Result<String, TryReserveError> {
    let mut copy = String::new();
    copy.try_reserve_exact(text.len())?;
    copy.push_str(text);
    Ok(copy)
}

/// The error of a variable that isn't bound.
fn not_bound(name: &str, fault: BindingFault) -> RoomError {
    match copied(name) {
        Ok(variable) => RoomError::NotBound { variable, fault },
        Err(error) => error.into(),
    }
}

/// The error of a row that isn't one of its table.
fn not_a_row(table: &str, row: usize, fault: RowFault) -> RoomError {
    match copied(table) {
        Ok(table) => RoomError::NotARow { table, row, fault },
        Err(error) => error.into(),
    }
}

/// These values as the library takes them.
pub(crate) fn bound(values: &[(&str, Value)]) -> Result<BoundValues, RoomError> {
    let mut bound = BoundValues::new();
    for (name, value) in values {
        let taken = match value {
            Value::Int(number) => bound.add_int(name, *number),
            Value::Text(text) => bound.add_text(name, text),
        };
        taken.map_err(|not_taken| match not_taken {
            NotTaken::OutOfMemory => RoomError::OutOfMemory,
            NotTaken::NoName => not_bound(name, BindingFault::NoName),
            NotTaken::LeastNumber => not_bound(name, BindingFault::LeastNumber),
            NotTaken::Text(fault) => not_bound(name, BindingFault::Value(fault)),
            NotTaken::TooMany => unreachable!("values stand in no row"),
        })?;
    }
    Ok(bound)
}

/// The error of a call that binds these values.
pub(crate) fn error_of_values(not_done: NotDone, values: &[(&str, Value)]) -> RoomError {
    match not_done {
        NotDone::NotBound(place, fault) => not_bound(values[place].0, fault),
        other => other.into(),
    }
}

/// These rows of tables as the library takes them.
pub(crate) fn given(tables: &[(&str, &[Row])]) -> Result<GivenRows, RoomError> {
    let mut given = GivenRows::new();
    for (table, rows) in tables {
        for (number, row) in rows.iter().enumerate() {
            add(&mut given, table, row).map_err(|not_added| match not_added {
                Some(fault) => not_a_row(table, number, fault),
                None => RoomError::OutOfMemory,
            })?;
        }
    }
    Ok(given)
}

/// Adds a row of a table; or the error is its fault, or nothing where there is no memory.
fn add(given: &mut GivenRows, table: &str, row: &Row) -> Result<(), Option<RowFault>> {
    given.begin(table).map_err(|not_taken| fault_of(not_taken, 0))?;
    for (column, value) in row.iter().enumerate() {
        let taken = match value {
            Value::Int(number) => given.add_int(*number),
            Value::Text(text) => given.add_text(text),
        };
        taken.map_err(|not_taken| fault_of(not_taken, column))?;
    }
    Ok(())
}

/// Why a row can't be one, if its name or the value of this column isn't taken; nothing where there is no memory.
fn fault_of(not_taken: NotTaken, column: usize) -> Option<RowFault> {
    match not_taken {
        NotTaken::OutOfMemory => None,
        NotTaken::NoName => Some(RowFault::NoSuchTable),
        NotTaken::TooMany => Some(RowFault::OtherLength),
        NotTaken::Text(fault) => Some(RowFault::Value { column, fault }),
        NotTaken::LeastNumber => unreachable!("a row may have any number"),
    }
}

/// The error of a room that isn't opened over these rows.
pub(crate) fn error_of_rows(not_done: NotDone, tables: &[(&str, &[Row])]) -> RoomError {
    match not_done {
        NotDone::NotARow(place, fault) => {
            let (table, row) = row_at(tables, place);
            not_a_row(table, row, fault)
        }
        other => other.into(),
    }
}

/// The table of the row at this place of all that were given, and which row of the table it is.
fn row_at<'a>(tables: &[(&'a str, &[Row])], place: usize) -> (&'a str, usize) {
    let mut left = place;
    for &(table, rows) in tables {
        if left < rows.len() {
            return (table, left);
        }
        left -= rows.len();
    }
    unreachable!("a row that is refused was given")
}
