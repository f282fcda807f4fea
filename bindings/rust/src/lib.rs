//! Entangled SQL from Rust: scripts wait in a room until those whom they need are there, and commit together.
//!
//! The work is done by a core that is proved; this crate links its static library and calls it safely.
//!
//! | Type or call | What it is for |
//! |---|---|
//! | [`Room`] | tables, and scripts that wait for those whom they need; threads and tasks are told how theirs end |
//! | [`Driver`] | tables, and scripts that take part in the next runs, whoever is there |
//! | [`report`], [`explain`], [`check`] | whole inputs and reports: each call stands alone, and keeps nothing |
//!
//! Scripts are run on the thread that calls. Calls that need neither a room nor a driver may be made from any number
//! of threads.
//!
//! ```
//! use entangle::{Version, report};
//!
//! let input = "CREATE TABLE Flights (fno INT, dest TEXT);
//!     INSERT INTO Flights VALUES (122, 'LA');
//!     BEGIN TRANSACTION;
//!     SELECT fno FROM Flights WHERE dest = 'LA';
//!     COMMIT;";
//! let report = report(input, Version::One)?;
//! assert!(report.starts_with("report 1\ntx 1 committed 1"));
//! # Ok::<(), entangle::Fault>(())
//! ```
//!
//! A [`Fault`] says where an input is wrong, and is explained by [`explain`]; that of a script by [`Room::explain`] or
//! [`Driver::explain`].
//!
//! ```
//! use entangle::{Version, explain, report};
//!
//! let input = "CREATE TABLE Flights (fno INT, dest TEX);";
//! let fault = report(input, Version::One).unwrap_err();
//! assert_eq!(fault.to_string(), "E201 at 36");
//! let place = fault.place.unwrap();
//! assert_eq!((place.offset, place.line, place.column), (36, 1, 37));
//! assert!(explain(input)?.unwrap().starts_with("E201 at 36\nline 1, column 37: "));
//! # Ok::<(), entangle::Fault>(())
//! ```

mod answer;
mod call;
mod counted;
mod driver;
mod fate;
mod fault;
mod given;
mod group;
mod library;
mod refusal;
mod room;
mod step;
mod ticket;
mod value;
mod waits;

pub use answer::{Answer, Fact};
pub use driver::{Driver, Failure, Fate, Shared, Standing, Tx};
pub use fate::FutureFate;
pub use fault::{Error, Fault, FaultKind, Place};
pub use group::{EndedTicket, Group, GroupCommit, TableChange};
pub use library::library_version;
pub use refusal::{BindingFault, RoomError, RowFault, ValueFault};
pub use room::{EpochReport, Patience, Room, RoomOptions, Stepped};
pub use step::{Reply, Step};
pub use ticket::{Ending, Submission, Ticket, TicketState};
pub use value::{Row, Value, WrongKind};

use call::{Call, Outcome};

/// Which text a report has.
#[derive(Clone, Copy, Debug, Default, PartialEq, Eq, Hash)]
#[non_exhaustive]
pub enum Version {
    /// Version 1: fates, answers, joint answers and tables.
    #[default]
    One,
    /// Version 2: the opening, the scripts and the groundings too, so that [`check`] can judge the report alone.
    Two,
}

impl Version {
    fn number(self) -> u32 {
        match self {
            Version::One => 1,
            Version::Two => 2,
        }
    }
}

/// What a check of a report answers.
#[derive(Clone, Copy, Debug, PartialEq, Eq, Hash)]
pub enum Verdict {
    /// The report tells of a legal book.
    Yes,
    /// The rule that is broken first, and the line that it names, counted from 1.
    No {
        /// The line of the report.
        line: u64,
        /// The rule.
        rule: Rule,
    },
}

/// The rules of a report, in the order in which they are judged.
#[derive(Clone, Copy, Debug, PartialEq, Eq, Hash)]
#[non_exhaustive]
pub enum Rule {
    /// The text is no report.
    Form,
    /// Fates and commits don't fit the scripts.
    Journal,
    /// A joint answer doesn't fit its members.
    Joint,
    /// A grounding isn't one of the database that its statement sees.
    Ground,
    /// An answer isn't that of its statement.
    Answer,
    /// A demand isn't met.
    Post,
    /// A table isn't what the commits leave.
    Table,
}

impl Rule {
    fn named(word: &str) -> Option<Self> {
        Some(match word {
            "form" => Rule::Form,
            "journal" => Rule::Journal,
            "joint" => Rule::Joint,
            "ground" => Rule::Ground,
            "answer" => Rule::Answer,
            "post" => Rule::Post,
            "table" => Rule::Table,
            _ => return None,
        })
    }
}

/// The report of an input.
///
/// All its scripts are submitted in order and run until each has its fate, as `entangle run` does it.
///
/// # Errors
///
/// The first fault of the input; or that memory ran out.
pub fn report(input: &str, version: Version) -> Result<String, Fault> {
    report_of_bytes(input.as_bytes(), version)
}

/// The report of bytes that may not be UTF-8, which is a fault of its own ([`FaultKind::Refused`], E100).
///
/// # Errors
///
/// The first fault of the input; or that memory ran out.
pub fn report_of_bytes(input: &[u8], version: Version) -> Result<String, Fault> {
    match Call::Report(version.number()).answer(input)? {
        Outcome::Done(text) => Ok(text),
        Outcome::Refused(_, fault) => Err(fault),
    }
}

/// What is said of the fault of an input, as `entangle run --explain` says it: several lines, with their ends. `None`
/// if the input has no fault; its scripts were run to find that out, so ask only if [`report`] failed.
///
/// # Errors
///
/// Memory ran out.
pub fn explain(input: &str) -> Result<Option<String>, Fault> {
    explain_bytes(input.as_bytes())
}

/// As [`explain`], for bytes that may not be UTF-8.
///
/// # Errors
///
/// Memory ran out.
pub fn explain_bytes(input: &[u8]) -> Result<Option<String>, Fault> {
    match Call::Explain.answer(input)? {
        Outcome::Done(_) => Ok(None),
        Outcome::Refused(text, _) => Ok(Some(text)),
    }
}

/// Whether a report of version 2 tells of a legal book, by its text alone.
///
/// ```
/// use entangle::{Verdict, Version, check, report};
///
/// let report = report("", Version::Two)?;
/// assert_eq!(check(&report)?, Verdict::Yes);
/// assert!(matches!(check("report 3\n")?, Verdict::No { line: 1, .. }));
/// # Ok::<(), entangle::Fault>(())
/// ```
///
/// # Errors
///
/// The report is too long (E603); or memory ran out.
pub fn check(report: &str) -> Result<Verdict, Fault> {
    check_bytes(report.as_bytes())
}

/// As [`check`], for bytes that may not be UTF-8, which are no report.
///
/// # Errors
///
/// The report is too long (E603); or memory ran out.
pub fn check_bytes(report: &[u8]) -> Result<Verdict, Fault> {
    match Call::Check.answer(report)? {
        Outcome::Done(_) => Ok(Verdict::Yes),
        Outcome::Refused(_, fault) if fault.code != 0 => Err(fault),
        Outcome::Refused(text, _) => Ok(verdict_in(&text).expect("a verdict is `no`, a line and a rule")),
    }
}

/// The verdict that a text says: `no`, a line and a rule.
fn verdict_in(text: &str) -> Option<Verdict> {
    let (line, rule) = text.strip_prefix("no ")?.split_once(' ')?;
    Some(Verdict::No { line: line.parse().ok()?, rule: Rule::named(rule)? })
}

/// The examples of the page are tried.
#[cfg(doctest)]
#[doc = include_str!("../README.md")]
struct ReadMe;
