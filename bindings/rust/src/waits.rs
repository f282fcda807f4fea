//! Those who wait for the end of a ticket: threads and tasks. The call that ends the ticket tells each of them.

use crate::counted::Counted;
use crate::refusal::RoomError;
use crate::room::locked;
use crate::ticket::{Ending, Ticket};
use std::collections::{HashMap, TryReserveError};
use std::mem;
use std::sync::{Condvar, Mutex, PoisonError};
use std::task::Waker;
use std::time::Instant;

/// Who is woken once there is something to tell.
pub(crate) enum Sleeper {
    Thread(Counted<Bed>),
    Task(Waker),
}

impl Sleeper {
    pub(crate) fn wake(self) {
        match self {
            Sleeper::Thread(bed) => bed.wake(),
            Sleeper::Task(waker) => waker.wake(),
        }
    }
}

/// Where a thread sleeps until it is woken. (Rust's own way to park a thread may ask for memory, and ends the process
/// where there is none.)
#[derive(Default)]
pub(crate) struct Bed {
    is_woken: Mutex<bool>,
    bell: Condvar,
}

impl Bed {
    /// Sleeps until it is woken, or until this time, if there is one; whether it was woken.
    pub(crate) fn sleep(&self, deadline: Option<Instant>) -> bool {
        let (is_woken, sleeps) = (locked(&self.is_woken), |is_woken: &mut bool| !*is_woken);
        let mut is_woken = match deadline {
            None => self.bell.wait_while(is_woken, sleeps).unwrap_or_else(PoisonError::into_inner),
            Some(deadline) => {
                let left = deadline.saturating_duration_since(Instant::now());
                self.bell.wait_timeout_while(is_woken, left, sleeps).unwrap_or_else(PoisonError::into_inner).0
            }
        };
        mem::take(&mut *is_woken)
    }

    fn wake(&self) {
        *locked(&self.is_woken) = true;
        self.bell.notify_one();
    }
}

/// What those who wait for a ticket are told.
#[derive(Clone, Copy)]
pub(crate) enum News {
    Ended(Ending),
    /// It ended, and how isn't kept.
    NotKept,
    /// The room is closed.
    Closed,
}

impl News {
    pub(crate) fn result(self) -> Result<Ending, RoomError> {
        match self {
            News::Ended(ending) => Ok(ending),
            News::NotKept => Err(RoomError::UnknownTicket),
            News::Closed => Err(RoomError::Closed),
        }
    }
}

/// One who waits: who is to be woken; or, from then on, what is told.
enum Wait {
    Sleeps(Sleeper),
    Told(News),
}

/// The number of one who waits.
pub(crate) type WaitId = u64;

/// All who wait. None of its calls wakes or drops a sleeper, which may run code of others: its callers do that, once
/// they hold no lock.
#[derive(Default)]
pub(crate) struct Waits {
    of_ticket: HashMap<Ticket, Vec<(WaitId, Wait)>>,
    next: WaitId,
    bell: Bell,
}

/// Who sleeps, and who is to be woken.
#[derive(Default)]
struct Bell {
    /// How many sleep.
    asleep: usize,
    /// Who is to be woken. It has room for all who sleep, so that to tell them takes no memory.
    woken: Vec<Sleeper>,
}

impl Bell {
    fn tell(&mut self, waits: &mut [(WaitId, Wait)], told: News) {
        for (_, wait) in waits.iter_mut().filter(|(_, wait)| matches!(wait, Wait::Sleeps(_))) {
            if let Wait::Sleeps(sleeper) = mem::replace(wait, Wait::Told(told)) {
                self.asleep -= 1;
                self.woken.push(sleeper);
            }
        }
    }
}

impl Waits {
    /// Takes in one who waits for a ticket.
    pub(crate) fn add(&mut self, ticket: Ticket, sleeper: Sleeper) -> Result<WaitId, TryReserveError> {
        self.bell.woken.try_reserve(self.bell.asleep + 1)?;
        self.of_ticket.try_reserve(1)?;
        let waits = self.of_ticket.entry(ticket).or_default();
        if let Err(error) = waits.try_reserve(1) {
            self.drop_empty(ticket);
            return Err(error);
        }
        waits.push((self.next, Wait::Sleeps(sleeper)));
        self.bell.asleep += 1;
        self.next += 1;
        Ok(self.next - 1)
    }

    /// What one who waits is told, who is gone then; or, if there is nothing to tell yet, the sleeper in whose place
    /// this one is now.
    pub(crate) fn hear(&mut self, ticket: Ticket, id: WaitId, sleeper: Sleeper) -> Result<News, Sleeper> {
        let waits = self.of_ticket.get_mut(&ticket).into_iter().flatten();
        let (_, wait) = waits.into_iter().find(|(one, _)| *one == id).expect("who waits is here until told");
        match wait {
            Wait::Sleeps(before) => Err(mem::replace(before, sleeper)),
            Wait::Told(told) => {
                let told = *told;
                self.forget(ticket, id);
                Ok(told)
            }
        }
    }

    /// One waits no more. If it slept, its sleeper comes back.
    pub(crate) fn forget(&mut self, ticket: Ticket, id: WaitId) -> Option<Sleeper> {
        let waits = self.of_ticket.get_mut(&ticket)?;
        let place = waits.iter().position(|(one, _)| *one == id)?;
        let (_, wait) = waits.swap_remove(place);
        self.drop_empty(ticket);
        match wait {
            Wait::Sleeps(sleeper) => {
                self.bell.asleep -= 1;
                Some(sleeper)
            }
            Wait::Told(_) => None,
        }
    }

    /// A ticket for which nobody waits takes no memory.
    fn drop_empty(&mut self, ticket: Ticket) {
        if self.of_ticket.get(&ticket).is_some_and(Vec::is_empty) {
            self.of_ticket.remove(&ticket);
        }
    }

    /// Tells all who wait for a ticket, if anybody does.
    pub(crate) fn tell(&mut self, ticket: Ticket, told: impl FnOnce() -> News) {
        if let Some(waits) = self.of_ticket.get_mut(&ticket) {
            self.bell.tell(waits, told());
        }
    }

    /// Tells all who wait for any of the tickets of which there is something to tell.
    pub(crate) fn tell_each(&mut self, mut told: impl FnMut(Ticket) -> Option<News>) {
        for (ticket, waits) in &mut self.of_ticket {
            if let Some(told) = told(*ticket) {
                self.bell.tell(waits, told);
            }
        }
    }

    /// The next who is to be woken.
    pub(crate) fn woken(&mut self) -> Option<Sleeper> {
        self.bell.woken.pop()
    }
}

#[cfg(test)]
mod tests {
    use super::*;
    use std::sync::Arc;
    use std::sync::atomic::{AtomicUsize, Ordering};
    use std::task::Wake;
    use std::thread;
    use std::time::Duration;

    /// A task that counts how often it was woken.
    #[derive(Default)]
    struct Task(AtomicUsize);

    impl Wake for Task {
        fn wake(self: Arc<Self>) {
            self.0.fetch_add(1, Ordering::Relaxed);
        }
    }

    fn sleeper(task: &Arc<Task>) -> Sleeper {
        Sleeper::Task(task.clone().into())
    }

    fn wake_all(waits: &mut Waits) {
        while let Some(sleeper) = waits.woken() {
            sleeper.wake();
        }
    }

    #[test]
    fn each_who_waits_is_told_once() {
        let (mut waits, task, ticket) = (Waits::default(), Arc::new(Task::default()), Ticket::new(7));
        let ids = [0, 1, 2].map(|_| waits.add(ticket, sleeper(&task)).expect("memory is there"));
        let other = waits.add(Ticket::new(8), sleeper(&task)).expect("memory is there");
        assert!(waits.forget(ticket, ids[1]).is_some());
        assert!(waits.hear(ticket, ids[0], sleeper(&task)).is_err());
        waits.tell(ticket, || News::Ended(Ending::GaveUp));
        waits.tell(ticket, || News::Closed);
        wake_all(&mut waits);
        assert_eq!(task.0.load(Ordering::Relaxed), 2);
        let told = |waits: &mut Waits, id| waits.hear(ticket, id, sleeper(&task)).ok().map(News::result);
        assert_eq!(told(&mut waits, ids[0]), Some(Ok(Ending::GaveUp)));
        assert!(waits.forget(ticket, ids[2]).is_none());
        waits.tell_each(|ticket| (ticket == Ticket::new(8)).then_some(News::NotKept));
        assert!(waits.hear(Ticket::new(8), other, sleeper(&task)).is_ok());
        wake_all(&mut waits);
        assert_eq!((task.0.load(Ordering::Relaxed), waits.of_ticket.len(), waits.bell.asleep), (3, 0, 0));
        assert_eq!(Arc::strong_count(&task), 1);
    }

    #[test]
    fn a_thread_sleeps_until_it_is_woken() {
        let bed = Counted::new(Bed::default()).expect("memory is there");
        bed.wake();
        bed.wake();
        assert!(bed.sleep(None));
        assert!(!bed.sleep(Some(Instant::now())));
        let deadline = Instant::now() + Duration::from_millis(20);
        assert!(!bed.sleep(Some(deadline)) && Instant::now() >= deadline);
        thread::scope(|scope| {
            let sleeps = scope.spawn(|| bed.sleep(None));
            Sleeper::Thread(bed.clone()).wake();
            assert!(sleeps.join().expect("it is woken"));
        });
    }
}
