//! The threads that serve connections. What belongs to a connection of a client, and the connections
//! to servers by which its requests go, stay on one of them, so that none wakes another for a request.

use std::cell::Cell;
use std::io;
use std::sync::atomic::{AtomicUsize, Ordering};
use std::sync::Arc;
use std::thread::{self, JoinHandle};
use tokio::runtime::{Builder, Handle};
use tokio::sync::oneshot;

thread_local! {
    static HERE: Cell<usize> = const { Cell::new(0) };
}

/// The number of this thread: that of the one that began is 0.
#[must_use]
pub fn here() -> usize {
    HERE.get()
}

/// In how many groups threads are at most.
const GROUPS: usize = 16;

/// The group of this thread.
#[must_use]
pub fn group() -> usize {
    here() % GROUPS
}

/// What each group of threads has for itself, so that those of others are not kept waiting.
pub struct Apart<T>([Own<T>; GROUPS]);

/// (No two share what processors hand one another.)
#[repr(align(128))]
struct Own<T>(T);

impl<T> Apart<T> {
    /// What each group has is made in turn.
    pub fn new(mut make: impl FnMut() -> T) -> Apart<T> {
        Apart(std::array::from_fn(|_| Own(make())))
    }

    /// That of a group.
    pub fn of(&self, group: usize) -> &T {
        &self.0[group].0
    }

    /// Those of all groups.
    pub fn all(&self) -> impl Iterator<Item = &T> {
        self.0.iter().map(|own| &own.0)
    }
}

/// How many threads have a connection of a client.
static BUSY: AtomicUsize = AtomicUsize::new(0);

/// How many threads share what there is, at least one.
#[must_use]
pub fn busy() -> usize {
    BUSY.load(Ordering::Relaxed).max(1)
}

/// A connection of a client on a thread, as long as this is there.
pub struct Held(Arc<AtomicUsize>);

impl Held {
    fn on(count: &Arc<AtomicUsize>) -> Held {
        if count.fetch_add(1, Ordering::Relaxed) == 0 {
            BUSY.fetch_add(1, Ordering::Relaxed);
        }
        Held(count.clone())
    }
}

impl Drop for Held {
    fn drop(&mut self) {
        if self.0.fetch_sub(1, Ordering::Relaxed) == 1 {
            BUSY.fetch_sub(1, Ordering::Relaxed);
        }
    }
}

/// A thread: where its tasks are begun, and how many connections of clients it has.
struct Worker {
    tasks: Handle,
    count: Arc<AtomicUsize>,
    /// Ends where this is dropped.
    ends: Option<(oneshot::Sender<()>, JoinHandle<()>)>,
}

/// The threads, of which the first is the one that began.
pub struct Workers(Vec<Worker>);

impl Worker {
    /// A thread of a number.
    fn start(number: usize) -> io::Result<Worker> {
        let runtime = Builder::new_current_thread().enable_all().build()?;
        let (tasks, (end, ended)) = (runtime.handle().clone(), oneshot::channel::<()>());
        let thread = thread::Builder::new().name(format!("serve-{number}")).spawn(move || {
            HERE.set(number);
            _ = runtime.block_on(ended);
            runtime.shutdown_background();
        })?;
        Ok(Worker { tasks, count: Arc::default(), ends: Some((end, thread)) })
    }
}

impl Workers {
    /// So many threads, this one among them.
    ///
    /// # Errors
    ///
    /// The system has none left.
    pub fn start(count: usize) -> io::Result<Workers> {
        let first = Worker { tasks: Handle::current(), count: Arc::default(), ends: None };
        let others = (1..count).map(Worker::start);
        Ok(Workers(std::iter::once(Ok(first)).chain(others).collect::<io::Result<_>>()?))
    }

    /// The one with the fewest connections, which has one more now: where its tasks are begun.
    #[must_use]
    pub fn least(&self) -> Option<(Handle, Held)> {
        let least = self.0.iter().min_by_key(|worker| worker.count.load(Ordering::Relaxed))?;
        Some((least.tasks.clone(), Held::on(&least.count)))
    }
}

impl Drop for Workers {
    fn drop(&mut self) {
        for worker in &mut self.0 {
            if let Some((end, thread)) = worker.ends.take() {
                drop(end);
                _ = thread.join();
            }
        }
    }
}
