//! Whether the library that is linked is the one of this crate.

use crate::call::{About, about};
use std::sync::OnceLock;

/// What the library is, asked once.
fn asked() -> &'static About {
    static ASKED: OnceLock<About> = OnceLock::new();
    ASKED.get_or_init(about)
}

/// The version of the library that is linked, as `entangle --version` prints it behind the program's name: its number,
/// and by what it is proved, or that it is built without proof.
///
/// ```
/// let (number, how) = entangle::library_version().split_once(", ").unwrap();
/// assert_eq!(number, env!("CARGO_PKG_VERSION"));
/// assert!(how.starts_with("proved by logic ") || how == "built without proof");
/// ```
///
/// # Panics
///
/// As every call: if the library isn't the one of this crate.
pub fn library_version() -> &'static str {
    fits();
    asked().version()
}

/// Panics if the library that is linked isn't the one of this crate.
pub(crate) fn fits() {
    if let Some(sentence) = difference(asked().version(), asked().has_these_sizes) {
        panic!("{sentence}");
    }
}

/// A sentence that says why a library isn't the one of this crate, if it isn't.
fn difference(version: &str, has_these_sizes: bool) -> Option<String> {
    let wanted = env!("CARGO_PKG_VERSION");
    if !has_these_sizes {
        return Some(format!("the linked library isn't of version {wanted}: its structs are of other sizes"));
    }
    let found = version.split(',').next().unwrap_or_default();
    (found != wanted).then(|| format!("the linked library is of version {found}, and this crate of {wanted}"))
}

#[cfg(test)]
mod tests {
    use super::*;

    #[test]
    fn another_library_is_told() {
        let said = |version, has_these_sizes| difference(version, has_these_sizes).unwrap_or_default();
        assert_eq!(said(concat!(env!("CARGO_PKG_VERSION"), ", proved by logic 1"), true), "");
        assert!(said("0.1.0, proved by logic 1", true).starts_with("the linked library is of version 0.1.0, and this"));
        assert!(said("", false).ends_with("its structs are of other sizes"));
    }
}
