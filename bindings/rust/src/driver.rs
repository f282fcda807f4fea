//! Drivers: tables that stay, scripts that come one by one, and runs.

use crate::answer::{Answer, Unread, answers_in, table_in};
use crate::call::{Handle, Position};
use crate::fault::{Error, Fault};
use crate::step::{Reply, Step};
use crate::{Row, Version};
use std::fmt;
use std::sync::{Mutex, MutexGuard, PoisonError};

/// The number of a transaction: its script's place in the order of submission, from 1.
pub type Tx = u64;

/// What became of a transaction.
#[derive(Clone, Copy, Debug, PartialEq, Eq, Hash)]
#[non_exhaustive]
pub enum Fate {
    /// It committed, as the one of this number.
    Committed {
        /// The number of the commit, from 1.
        number: u64,
        /// In how many runs it was.
        runs: u64,
    },
    /// It was in as many runs as its script asks for.
    GaveUp {
        /// In how many runs it was.
        runs: u64,
    },
    /// Its script ends with ROLLBACK.
    RolledBack {
        /// In how many runs it was.
        runs: u64,
    },
    /// A statement failed.
    Failed {
        /// Why.
        failure: Failure,
        /// In how many runs it was.
        runs: u64,
    },
}

/// Why a statement failed.
#[derive(Clone, Copy, Debug, PartialEq, Eq, Hash)]
#[non_exhaustive]
pub enum Failure {
    /// F1: a sum or a difference went beyond 64 bits.
    Overflow,
    /// F2: more than 65,536 rows would have stood in a table.
    TableFull,
}

impl Failure {
    pub(crate) fn numbered(number: u32) -> Self {
        match number {
            1 => Failure::Overflow,
            2 => Failure::TableFull,
            other => unreachable!("a statement fails in one of two ways, and {other} isn't one"),
        }
    }
}

/// Where a transaction stands.
#[derive(Clone, Copy, Debug, PartialEq, Eq, Hash)]
#[non_exhaustive]
pub enum Standing {
    /// It waits for a run, after so many.
    Waiting {
        /// In how many runs it was.
        runs: u64,
    },
    /// It is a member of a run that is on, by [`Driver::step`] or since memory ran out; [`Driver::run`] goes on with
    /// that run.
    Running,
    /// What became of it.
    Finished(Fate),
}

impl Standing {
    fn of(position: Position) -> Self {
        let Position { runs, number, kind, failure } = position;
        let fate = match kind {
            1 => return Standing::Waiting { runs },
            2..=5 => return Standing::Running,
            6 => Fate::Committed { number, runs },
            7 => Fate::GaveUp { runs },
            8 => Fate::RolledBack { runs },
            9 => Fate::Failed { failure: Failure::numbered(failure), runs },
            other => unreachable!("a transaction stands in one of nine ways, and {other} isn't one"),
        };
        Standing::Finished(fate)
    }

    /// Its fate, if it has one.
    pub fn fate(self) -> Option<Fate> {
        match self {
            Standing::Finished(fate) => Some(fate),
            Standing::Waiting { .. } | Standing::Running => None,
        }
    }
}

/// What was read of lines of a report, which the library wrote.
pub(crate) fn read<T, E: From<Fault>>(read: Result<T, Unread>) -> Result<T, E> {
    read.map_err(|unread| match unread {
        Unread::OutOfMemory => Fault::OUT_OF_MEMORY.into(),
        Unread::Strange => unreachable!("the library writes lines of a report"),
    })
}

/// Tables, and the scripts that were submitted over them. Each run lets those that wait take part, 64 at most.
///
/// ```
/// use entangle::{Answer, Fate, Driver, Version};
///
/// let mut driver = Driver::open("CREATE TABLE Flights (fno INT); INSERT INTO Flights VALUES (122);")?;
/// let script = |who: &str, friend: &str| {
///     format!(
///         "BEGIN TRANSACTION WITHIN 100 RUNS;
///          SELECT '{who}', fno INTO ANSWER Trip
///            WHERE fno IN (SELECT fno FROM Flights) AND ('{friend}', fno) IN ANSWER Trip CHOOSE 1;
///          COMMIT;"
///     )
/// };
/// let mickey = driver.submit(&script("Mickey", "Minnie"))?;
/// driver.run()?;
/// assert_eq!(driver.standing(mickey)?.fate(), None);
///
/// let minnie = driver.submit(&script("Minnie", "Mickey"))?;
/// driver.run()?;
/// assert_eq!(driver.standing(minnie)?.fate(), Some(Fate::Committed { number: 2, runs: 1 }));
/// let Answer::Entangled(facts) = &driver.answers(mickey)?[0] else { unreachable!() };
/// assert!(facts[0].values[0] == "Mickey" && facts[0].values[1] == 122);
///
/// driver.close()?;
/// assert!(driver.report(Version::One)?.contains("joint 1 1.1 2.1\n"));
/// # Ok::<(), entangle::Error>(())
/// ```
///
/// It may move to another thread. Threads that use one driver share a [`Shared`].
pub struct Driver {
    handle: Handle,
}

impl fmt::Debug for Driver {
    fn fmt(&self, f: &mut fmt::Formatter<'_>) -> fmt::Result {
        f.debug_struct("Driver").finish_non_exhaustive()
    }
}

impl Driver {
    /// Opens a driver over an input: its tables with their rows. Scripts that it has wait for a run.
    ///
    /// # Errors
    ///
    /// The first fault of the input; or that memory ran out.
    pub fn open(input: &str) -> Result<Self, Error> {
        Driver::open_bytes(input.as_bytes())
    }

    /// As [`Driver::open`], for bytes that may not be UTF-8.
    ///
    /// # Errors
    ///
    /// The first fault of the input; or that memory ran out.
    pub fn open_bytes(input: &[u8]) -> Result<Self, Error> {
        Ok(Driver { handle: Handle::open(input)? })
    }

    /// Submits the script of a text that has this script alone, which waits for the next run then.
    ///
    /// # Errors
    ///
    /// The script's first fault, with its place in this text; that 10,000 scripts were submitted (E406); or that memory
    /// ran out.
    pub fn submit(&mut self, script: &str) -> Result<Tx, Error> {
        self.submit_bytes(script.as_bytes())
    }

    /// As [`Driver::submit`], for bytes that may not be UTF-8.
    ///
    /// # Errors
    ///
    /// As [`Driver::submit`].
    pub fn submit_bytes(&mut self, script: &[u8]) -> Result<Tx, Error> {
        self.handle.submit(script)
    }

    /// What is said of the fault of a script, as [`explain`](crate::explain) says it of an input: the line that names
    /// it, its line and column in this text, a sentence, the line with carets below the place, and often a hint. `None`
    /// if the script has no fault. Nothing is submitted; so ask if [`Driver::submit`] refused the script.
    ///
    /// ```
    /// let mut driver = entangle::Driver::open("CREATE TABLE Flights (fno INT);")?;
    /// let script = "BEGIN TRANSACTION;\nINSERT INTO Flight VALUES (122);\nCOMMIT;";
    /// assert!(driver.submit(script).is_err());
    /// let said = "E301 at 31\n\
    ///     line 2, column 13: there is no table Flight\n  \
    ///     INSERT INTO Flight VALUES (122);\n              ^^^^^^\n\
    ///     did you mean Flights?\n";
    /// assert_eq!(driver.explain(script)?.as_deref(), Some(said));
    /// # Ok::<(), entangle::Error>(())
    /// ```
    ///
    /// # Errors
    ///
    /// The driver is closed; or memory ran out.
    pub fn explain(&mut self, script: &str) -> Result<Option<String>, Error> {
        self.explain_bytes(script.as_bytes())
    }

    /// As [`Driver::explain`], for bytes that may not be UTF-8.
    ///
    /// # Errors
    ///
    /// As [`Driver::explain`].
    pub fn explain_bytes(&mut self, script: &[u8]) -> Result<Option<String>, Error> {
        self.handle.explain(script)
    }

    /// Makes one run, where anything waits for one. Where a run is on, by [`Driver::step`] or since memory ran out,
    /// that one is made to its end, and no other.
    ///
    /// # Errors
    ///
    /// Memory ran out; what was done stands, and the next call goes on.
    pub fn run(&mut self) -> Result<(), Error> {
        self.handle.run()
    }

    /// Makes one event, for a caller that orders those of a run itself.
    ///
    /// # Errors
    ///
    /// Memory ran out; what was done stands, and the step may be made again.
    pub fn step(&mut self, step: Step) -> Result<Reply, Error> {
        let (step, number) = step.numbers();
        let reply = self.handle.make(step, number)?;
        Ok(Reply::numbered(reply).expect("each step has one of the replies"))
    }

    /// What keeps a transaction from moving now, in words that begin with where it stands: `dormant`, `ready`,
    /// `blocked`, `held back`, `posted`, `out` or `prepared`; else its fate.
    ///
    /// # Errors
    ///
    /// No script has this number (E401); or memory ran out.
    pub fn why(&mut self, tx: Tx) -> Result<String, Error> {
        let mut line = self.handle.why(tx)?;
        line.truncate(line.trim_end().len());
        Ok(line)
    }

    /// Where a transaction stands.
    ///
    /// # Errors
    ///
    /// No script has this number (E401).
    pub fn standing(&mut self, tx: Tx) -> Result<Standing, Error> {
        Ok(Standing::of(self.handle.standing(tx)?))
    }

    /// What the statements of a transaction were answered: of one that committed all of it, of a member of a run that
    /// is on what it has, which it may still lose; else nothing.
    ///
    /// # Errors
    ///
    /// No script has this number (E401); or memory ran out.
    pub fn answers(&mut self, tx: Tx) -> Result<Vec<Answer>, Error> {
        read(answers_in(&self.handle.answers(tx)?))
    }

    /// The lines in which a report has these answers.
    ///
    /// # Errors
    ///
    /// As [`Driver::answers`].
    pub fn answer_lines(&mut self, tx: Tx) -> Result<String, Error> {
        self.handle.answers(tx)
    }

    /// The rows of a table, ascending.
    ///
    /// # Errors
    ///
    /// No table has this name (E401); or memory ran out.
    pub fn table(&mut self, name: &str) -> Result<Vec<Row>, Error> {
        read(table_in(&self.handle.table(name.as_bytes())?))
    }

    /// Closes the driver, where every transaction has its fate. Then it is there for [`Driver::report`] and
    /// [`Driver::renew`] alone.
    ///
    /// # Errors
    ///
    /// A run is on, or a transaction waits for one (E405); or memory ran out. The driver stays open.
    pub fn close(&mut self) -> Result<(), Error> {
        self.handle.close()
    }

    /// Opens a driver that is closed again: over the same tables, with the rows that they ended with. No script is
    /// submitted to it, and numbers begin at 1 again. So a service goes on when 10,000 scripts were submitted.
    ///
    /// # Errors
    ///
    /// The driver isn't closed; or more than 65,536 rows stand in the tables together (E407), or memory ran out: then
    /// it stays closed.
    pub fn renew(&mut self) -> Result<(), Error> {
        self.handle.renew()
    }

    /// The report of a driver that is closed.
    ///
    /// # Errors
    ///
    /// The driver isn't closed; or memory ran out.
    pub fn report(&mut self, version: Version) -> Result<String, Error> {
        self.handle.report(version.number())
    }
}

/// A driver that threads share: one call at a time has it.
///
/// ```
/// use entangle::{Driver, Shared};
/// use std::thread;
///
/// let shared = Shared::new(Driver::open("CREATE TABLE T (a INT);")?);
/// thread::scope(|scope| {
///     for number in 0..4 {
///         let shared = &shared;
///         scope.spawn(move || {
///             let script = format!("BEGIN TRANSACTION; INSERT INTO T VALUES ({number}); COMMIT;");
///             let mut driver = shared.lock();
///             let tx = driver.submit(&script).expect("the script is right");
///             driver.run().expect("memory is there");
///             assert!(driver.standing(tx).expect("it was submitted").fate().is_some());
///         });
///     }
/// });
/// assert_eq!(shared.lock().table("T")?.len(), 4);
/// # Ok::<(), entangle::Error>(())
/// ```
#[derive(Debug)]
pub struct Shared {
    driver: Mutex<Driver>,
}

impl Shared {
    /// A driver to be shared.
    pub fn new(driver: Driver) -> Self {
        Shared { driver: Mutex::new(driver) }
    }

    /// The driver, as long as what is returned lives. A thread that panicked over it has left it whole: each call
    /// leaves it so.
    pub fn lock(&self) -> MutexGuard<'_, Driver> {
        self.driver.lock().unwrap_or_else(PoisonError::into_inner)
    }

    /// The driver, once nobody shares it any more.
    pub fn into_inner(self) -> Driver {
        self.driver.into_inner().unwrap_or_else(PoisonError::into_inner)
    }
}
