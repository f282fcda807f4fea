//! What statements were answered, and rows: read from the lines of a report.

use crate::value::{Row, Value};
use std::collections::TryReserveError;
use std::fmt;

/// A row of an answer relation: what an entangled statement put there.
///
/// Printed it is as a report has it, such as `Trip('Mickey', 122)`.
#[derive(Clone, Debug, PartialEq, Eq, Hash)]
pub struct Fact {
    /// The name of the relation.
    pub relation: String,
    /// The row.
    pub values: Row,
}

/// What a statement was answered.
#[derive(Clone, Debug, PartialEq, Eq, Hash)]
#[non_exhaustive]
pub enum Answer {
    /// INSERT, DELETE, UPDATE: how many rows.
    Count(u64),
    /// SET: the value.
    Set(Value),
    /// SELECT: its rows, ascending.
    Rows(Vec<Row>),
    /// An entangled SELECT: its row of each of its answer relations.
    Entangled(Vec<Fact>),
}

impl fmt::Display for Fact {
    fn fmt(&self, f: &mut fmt::Formatter<'_>) -> fmt::Result {
        write!(f, "{}(", self.relation)?;
        for (index, value) in self.values.iter().enumerate() {
            write!(f, "{}{value}", if index > 0 { ", " } else { "" })?;
        }
        f.write_str(")")
    }
}

/// Why lines of the library aren't read.
#[derive(Debug, PartialEq, Eq)]
pub(crate) enum Unread {
    /// The library writes no such lines.
    Strange,
    /// Memory ran out.
    OutOfMemory,
}

impl From<TryReserveError> for Unread {
    fn from(_: TryReserveError) -> Self {
        Unread::OutOfMemory
    }
}

pub(crate) type Read<T> = Result<T, Unread>;

/// Puts a thing behind a list, if there is memory for it.
pub(crate) fn push<T>(list: &mut Vec<T>, thing: T) -> Read<()> {
    list.try_reserve(1)?;
    list.push(thing);
    Ok(())
}

/// Puts a text behind another, if there is memory for it.
pub(crate) fn push_text(text: &mut String, more: &str) -> Read<()> {
    text.try_reserve(more.len())?;
    text.push_str(more);
    Ok(())
}

/// The rest of some lines of a report, from which one thing after the other is read.
struct Lines<'a> {
    rest: &'a str,
}

impl<'a> Lines<'a> {
    /// Whether this stands in front, which is then behind.
    fn has(&mut self, word: &str) -> bool {
        match self.rest.strip_prefix(word) {
            Some(rest) => (self.rest = rest, true).1,
            None => false,
        }
    }

    /// Reads this.
    fn word(&mut self, word: &str) -> Read<()> {
        if self.has(word) { Ok(()) } else { Err(Unread::Strange) }
    }

    /// Reads what stands before a character, and the character, which has one byte.
    fn before(&mut self, end: char) -> Read<&'a str> {
        let (found, rest) = self.rest.split_once(end).ok_or(Unread::Strange)?;
        self.rest = rest;
        Ok(found)
    }

    /// Reads a number that ends its line.
    fn last_number<T: std::str::FromStr>(&mut self) -> Read<T> {
        self.before('\n')?.parse().map_err(|_| Unread::Strange)
    }

    fn value(&mut self) -> Read<Value> {
        if !self.has("'") {
            let end = self.rest.find([',', ')', '\n']).ok_or(Unread::Strange)?;
            let (number, rest) = self.rest.split_at(end);
            self.rest = rest;
            return Ok(Value::Int(number.parse().map_err(|_| Unread::Strange)?));
        }
        let mut text = String::new();
        loop {
            let piece = self.before('\'')?;
            push_text(&mut text, piece)?;
            if !self.has("'") {
                return Ok(Value::Text(text));
            }
            push_text(&mut text, "'")?;
        }
    }

    fn row(&mut self) -> Read<Row> {
        let mut values = Row::new();
        self.word("(")?;
        loop {
            push(&mut values, self.value()?)?;
            if !self.has(", ") {
                self.word(")")?;
                return Ok(values);
            }
        }
    }

    /// Reads rows, each a line.
    fn rows(&mut self, count: usize) -> Read<Vec<Row>> {
        let mut rows = Vec::new();
        for _ in 0..count {
            push(&mut rows, self.row()?)?;
            self.word("\n")?;
        }
        Ok(rows)
    }

    /// Reads facts, each behind a space, to the end of a line.
    fn facts(&mut self) -> Read<Vec<Fact>> {
        let mut facts = Vec::new();
        while self.has(" ") {
            let end = self.rest.find('(').ok_or(Unread::Strange)?;
            let (name, rest) = self.rest.split_at(end);
            self.rest = rest;
            let mut relation = String::new();
            push_text(&mut relation, name)?;
            let values = self.row()?;
            push(&mut facts, Fact { relation, values })?;
        }
        self.word("\n")?;
        Ok(facts)
    }

    /// Reads an answer, behind the number of its statement.
    fn answer(&mut self) -> Read<Answer> {
        let _statement = self.before(' ')?;
        if self.has("count ") {
            return Ok(Answer::Count(self.last_number()?));
        }
        if self.has("set ") {
            let value = self.value()?;
            self.word("\n")?;
            return Ok(Answer::Set(value));
        }
        if self.has("rows ") {
            let count = self.last_number()?;
            return Ok(Answer::Rows(self.rows(count)?));
        }
        self.word("answer")?;
        Ok(Answer::Entangled(self.facts()?))
    }
}

/// The answers that lines of a report say, in order of their statements.
pub(crate) fn answers_in(lines: &str) -> Read<Vec<Answer>> {
    let (mut answers, mut lines) = (Vec::new(), Lines { rest: lines });
    while !lines.rest.is_empty() {
        push(&mut answers, lines.answer()?)?;
    }
    Ok(answers)
}

/// The rows of a table that lines of a report say.
pub(crate) fn table_in(lines: &str) -> Read<Vec<Row>> {
    let mut lines = Lines { rest: lines };
    lines.word("table ")?;
    let _name = lines.before(' ')?;
    let count = lines.last_number()?;
    let rows = lines.rows(count)?;
    if lines.rest.is_empty() { Ok(rows) } else { Err(Unread::Strange) }
}

#[cfg(test)]
mod tests {
    use super::*;

    #[test]
    fn lines_are_read_back() {
        let lines = "1 count 2\n2 set -7\n3 set 'it''s, (so)'\n4 rows 2\n(1, 'a')\n(2, 'b')\n5 answer R('x', 1) S(2)\n";
        let said = answers_in(lines).expect("these are lines of a report");
        let fact = |relation: &str, values: &[Value]| Fact { relation: relation.into(), values: values.to_vec() };
        let facts = vec![fact("R", &["x".into(), 1.into()]), fact("S", &[2.into()])];
        assert_eq!(facts[0].to_string(), "R('x', 1)");
        assert_eq!(
            said,
            [
                Answer::Count(2),
                Answer::Set(Value::Int(-7)),
                Answer::Set("it's, (so)".into()),
                Answer::Rows(vec![vec![1.into(), "a".into()], vec![2.into(), "b".into()]]),
                Answer::Entangled(facts),
            ]
        );
        assert_eq!(table_in("table T 1\n(9223372036854775807)\n"), Ok(vec![vec![Value::Int(i64::MAX)]]));
        assert_eq!(Value::from("it's").to_string(), "'it''s'");
    }

    #[test]
    fn other_lines_are_strange() {
        for lines in ["table T 2\n(1)\n", "table T 1\n(1)\n(2)\n", "table T 1\n(1x)\n", "table T 1\n('x)\n", "T 0\n"] {
            assert_eq!(table_in(lines), Err(Unread::Strange), "{lines}");
        }
        for lines in ["1\n", "1 count x\n", "1 rows 1\n", "1 answer R\n", "1 answer R(1", "1 set 'a\n", "1 moved 2\n"] {
            assert_eq!(answers_in(lines), Err(Unread::Strange), "{lines}");
        }
    }
}
