//! Values of tables and answers.

use std::error::Error as StandardError;
use std::fmt;

/// A value: a number or a text.
///
/// ```
/// use entangle::{Value, WrongKind};
///
/// let value = Value::from("LA");
/// assert!(value == "LA" && value != 122);
/// assert_eq!(value.as_text(), Some("LA"));
/// let number: Result<i64, WrongKind> = i64::try_from(&value);
/// assert_eq!(number.unwrap_err().to_string(), "the value is a text, and a number is wanted");
/// assert_eq!(i64::try_from(Value::from(122)), Ok(122));
/// ```
#[derive(Clone, Debug, PartialEq, Eq, PartialOrd, Ord, Hash)]
pub enum Value {
    /// A number.
    Int(i64),
    /// A text.
    Text(String),
}

/// A row of a table, or of an answer.
pub type Row = Vec<Value>;

impl Value {
    /// The number, if it is one.
    pub fn as_int(&self) -> Option<i64> {
        match self {
            Value::Int(number) => Some(*number),
            Value::Text(_) => None,
        }
    }

    /// The text, if it is one.
    pub fn as_text(&self) -> Option<&str> {
        match self {
            Value::Int(_) => None,
            Value::Text(text) => Some(text),
        }
    }
}

/// A value is of the other kind than the one that is wanted.
#[derive(Clone, Copy, Debug, PartialEq, Eq, Hash)]
pub struct WrongKind {
    wants_number: bool,
}

impl fmt::Display for WrongKind {
    fn fmt(&self, f: &mut fmt::Formatter<'_>) -> fmt::Result {
        f.write_str(if self.wants_number {
            "the value is a text, and a number is wanted"
        } else {
            "the value is a number, and a text is wanted"
        })
    }
}

impl StandardError for WrongKind {}

/// As SQL has it: a text in quotes, with each quote inside doubled.
impl fmt::Display for Value {
    fn fmt(&self, f: &mut fmt::Formatter<'_>) -> fmt::Result {
        match self {
            Value::Int(number) => write!(f, "{number}"),
            Value::Text(text) => write!(f, "'{}'", text.replace('\'', "''")),
        }
    }
}

impl From<i64> for Value {
    fn from(number: i64) -> Self {
        Value::Int(number)
    }
}

impl From<i32> for Value {
    fn from(number: i32) -> Self {
        Value::Int(number.into())
    }
}

impl From<u32> for Value {
    fn from(number: u32) -> Self {
        Value::Int(number.into())
    }
}

impl From<String> for Value {
    fn from(text: String) -> Self {
        Value::Text(text)
    }
}

impl From<&str> for Value {
    fn from(text: &str) -> Self {
        Value::Text(text.to_string())
    }
}

impl TryFrom<Value> for i64 {
    type Error = WrongKind;

    fn try_from(value: Value) -> Result<Self, WrongKind> {
        i64::try_from(&value)
    }
}

impl TryFrom<&Value> for i64 {
    type Error = WrongKind;

    fn try_from(value: &Value) -> Result<Self, WrongKind> {
        value.as_int().ok_or(WrongKind { wants_number: true })
    }
}

impl TryFrom<Value> for String {
    type Error = WrongKind;

    fn try_from(value: Value) -> Result<Self, WrongKind> {
        match value {
            Value::Text(text) => Ok(text),
            Value::Int(_) => Err(WrongKind { wants_number: false }),
        }
    }
}

impl<'a> TryFrom<&'a Value> for &'a str {
    type Error = WrongKind;

    fn try_from(value: &'a Value) -> Result<Self, WrongKind> {
        value.as_text().ok_or(WrongKind { wants_number: false })
    }
}

impl PartialEq<i64> for Value {
    fn eq(&self, number: &i64) -> bool {
        self.as_int() == Some(*number)
    }
}

impl PartialEq<Value> for i64 {
    fn eq(&self, value: &Value) -> bool {
        value == self
    }
}

impl PartialEq<str> for Value {
    fn eq(&self, text: &str) -> bool {
        self.as_text() == Some(text)
    }
}

impl PartialEq<&str> for Value {
    fn eq(&self, text: &&str) -> bool {
        self.as_text() == Some(*text)
    }
}

impl PartialEq<String> for Value {
    fn eq(&self, text: &String) -> bool {
        self.as_text() == Some(text)
    }
}

impl PartialEq<Value> for str {
    fn eq(&self, value: &Value) -> bool {
        value == self
    }
}

impl PartialEq<Value> for &str {
    fn eq(&self, value: &Value) -> bool {
        value == *self
    }
}

impl PartialEq<Value> for String {
    fn eq(&self, value: &Value) -> bool {
        value == self
    }
}
