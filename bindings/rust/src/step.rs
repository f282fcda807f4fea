//! Single events of a driver, and the replies to them.

use crate::driver::Tx;

/// What a caller asks for who orders the events of a run itself. The job that an event lends is carried out within it.
#[derive(Clone, Copy, Debug, PartialEq, Eq, Hash)]
#[non_exhaustive]
pub enum Step {
    /// A run starts.
    StartRun,
    /// A transaction begins its next statement, or ends as its script does.
    Begin(Tx),
    /// A component of the statements that are posted is answered together.
    Pick,
    /// A deadlock is looked for, and broken.
    BreakCycle,
    /// The run ends, where nothing can move in it.
    EndRun,
}

impl Step {
    /// Its number, and that of the transaction that it is of.
    pub(crate) fn numbers(self) -> (u32, Tx) {
        match self {
            Step::StartRun => (1, 0),
            Step::Begin(tx) => (2, tx),
            Step::Pick => (3, 0),
            Step::BreakCycle => (4, 0),
            Step::EndRun => (5, 0),
        }
    }
}

/// The reply to a [`Step`].
#[derive(Clone, Copy, Debug, PartialEq, Eq, Hash)]
#[non_exhaustive]
pub enum Reply {
    /// A run is on.
    Started,
    /// It stays: another transaction blocks it.
    Blocked,
    /// It stays: a demand would meet offers of two.
    HeldBack,
    /// Its entangled statement waits for an answer.
    Posted,
    /// It waits for the others of its group.
    Prepared,
    /// Its group committed.
    Committed,
    /// Its group is rolled back.
    RolledBack,
    /// Its statement is answered.
    Stepped,
    /// Its statement failed, and its group is rolled back.
    Failed,
    /// There is no component to be answered.
    Nothing,
    /// The component has its answers.
    Answered,
    /// No values serve the component.
    NoChoice,
    /// There was a deadlock, and a group is rolled back for it.
    Broken,
    /// There is no deadlock.
    NoCycle,
    /// The run ended.
    Ended,
    /// E401: it is no member of the run, or nothing waits for a run. Nothing changed.
    Absent,
    /// E402: not now. Nothing changed.
    NotNow,
    /// E404: the run can't end yet. Nothing changed.
    Busy,
}

/// In the order of their numbers, from 1.
const REPLIES: [Reply; 18] = [
    Reply::Started,
    Reply::Blocked,
    Reply::HeldBack,
    Reply::Posted,
    Reply::Prepared,
    Reply::Committed,
    Reply::RolledBack,
    Reply::Stepped,
    Reply::Failed,
    Reply::Nothing,
    Reply::Answered,
    Reply::NoChoice,
    Reply::Broken,
    Reply::NoCycle,
    Reply::Ended,
    Reply::Absent,
    Reply::NotNow,
    Reply::Busy,
];

impl Reply {
    /// The reply of this number.
    pub(crate) fn numbered(number: u32) -> Option<Reply> {
        REPLIES.get(usize::try_from(number).ok()?.checked_sub(1)?).copied()
    }
}
