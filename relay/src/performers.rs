//! Tasks that perform requests. One that has performed its own waits for another, so that under load
//! few are begun.

use crate::front::{Asked, Role};
use crate::memory::Owed;
use crate::shares::{One, Place};
use crate::timer::Timer;
use crate::wire::locked;
use crate::workers::here;
use lemonrudder::{Version, Wish};
use std::future::{poll_fn, Future};
use std::sync::{Arc, Mutex};
use std::task::{Poll, Waker};
use tokio::sync::mpsc::{self, error::TrySendError};

/// How many tasks of a thread wait for requests at most.
const IDLE: usize = 64;

/// A request that is to be performed and answered.
pub struct Job {
    pub asked: Asked,
    pub version: Version,
    pub wish: Wish,
    pub id: u32,
    /// Where its reply is due.
    pub due: mpsc::Sender<Owed>,
    /// Its place among those under way, where that is not by its client id; and that it is one of
    /// its connection.
    pub place: Option<Place>,
    pub is_one: One,
}

impl Job {
    async fn perform<R: Role>(self, role: &R, timer: &mut Timer) {
        let Job { asked, version, wish, id, due, place, is_one } = self;
        let peer = asked.peer.clone();
        let answer = role.perform(asked, timer).await;
        if let Some(answer) = answer.filter(|_| wish != Wish::None) {
            let owed = peer.account.owes(answer.reply(version, id));
            drop(answer);
            // (most have room there at once)
            if let Err(TrySendError::Full(owed)) = due.try_send(owed) {
                _ = due.send(owed).await;
            }
        }
        drop((place, is_one));
    }
}

/// Where a task gets requests, one after another, and what wakes it.
#[derive(Default)]
struct Hand(Mutex<(Option<Job>, Option<Waker>)>);

impl Hand {
    /// Has the task perform a request.
    fn give(&self, job: Job) {
        let (given, waker) = &mut *locked(&self.0);
        *given = Some(job);
        waker.iter().for_each(Waker::wake_by_ref);
    }

    /// The next request.
    fn given(&self) -> impl Future<Output = Job> + '_ {
        poll_fn(|context| {
            let (given, waker) = &mut *locked(&self.0);
            if let Some(job) = given.take() {
                return Poll::Ready(job);
            }
            if !waker.as_ref().is_some_and(|it| it.will_wake(context.waker())) {
                *waker = Some(context.waker().clone());
            }
            Poll::Pending
        })
    }
}

/// The tasks that perform requests of a role.
pub struct Performers<R> {
    role: Arc<R>,
    /// Those that wait, on each thread.
    idle: Vec<Mutex<Vec<Arc<Hand>>>>,
}

impl<R: Role> Performers<R> {
    /// Those of so many threads.
    pub fn new(role: Arc<R>, threads: usize) -> Arc<Performers<R>> {
        let idle = (0..threads).map(|_| Mutex::default()).collect();
        Arc::new(Performers { role, idle })
    }

    /// Has a request performed by a task that waits, or by a new one.
    pub fn perform(self: &Arc<Self>, job: Job) {
        let idle = locked(&self.idle[here()]).pop();
        match idle {
            Some(task) => task.give(job),
            None => _ = tokio::spawn(self.clone().performs(job)),
        }
    }

    /// Performs a request, and then others, unless enough wait for those.
    async fn performs(self: Arc<Self>, first: Job) {
        let (mut job, hand, mut timer) = (first, Arc::default(), Timer::new());
        loop {
            job.perform(&*self.role, &mut timer).await;
            if !self.waits(&hand) {
                return;
            }
            job = hand.given().await;
        }
    }

    /// Whether there is a place left among those who wait, which is taken then.
    fn waits(&self, hand: &Arc<Hand>) -> bool {
        let mut idle = locked(&self.idle[here()]);
        let is_left = idle.len() < IDLE;
        idle.extend(is_left.then(|| hand.clone()));
        is_left
    }
}
