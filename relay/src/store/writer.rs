//! What writes to a database: it takes steps from all tasks, and makes those that wait together
//! one transaction. Who comes while one is being written waits for the next.

use super::{Begun, Error, Key, Outcome};
use crate::mark::Mark;
use crate::metrics::{self, metrics, Takes, Waits};
use crate::wire::locked;
use crate::workers::here;
use std::collections::{BTreeMap, HashMap, HashSet, VecDeque};
use std::future::Future;
use std::iter;
use std::mem;
use std::sync::atomic::{AtomicBool, Ordering};
use std::sync::{Arc, Mutex};
use std::thread;
use std::time::Duration;
use tokio::runtime::{Builder, Handle};
use tokio::select;
use tokio::sync::mpsc::{unbounded_channel, UnboundedReceiver, UnboundedSender};
use tokio::sync::oneshot;
use tokio::time::{sleep_until, Instant};
use tracing::{error, info};

/// Steps of one transaction at most.
const MOST: usize = 1024;
/// What part of the time of a transaction those have whom it told, to come along with the next one;
/// and how often it is looked whether they have.
const PART: u32 = 4;
const LOOK: Duration = Duration::from_micros(50);
/// How long after a failure the database is tried again.
const PAUSE: Duration = Duration::from_millis(200);

/// A step of a request, or a purge.
#[derive(Debug)]
pub enum Step {
    Begin(Key, u64),
    Finish(Key, Outcome),
    Undo(Key),
    /// The moment before which what is taken out expired, and how many were taken out by now.
    Purge(u64, u64),
    /// The last step: this guard lives no more.
    Close,
}

/// What came of a step.
#[derive(Debug)]
pub enum Done {
    Begun(Begun),
    /// It is begun by a guard that lives: it is to be looked at again once that is told.
    Waits,
    /// It went between two looks: it is to be looked at again.
    Again,
    Finished(Result<Outcome, Error>),
    Undone,
    /// How many were taken out by now, and whether there are more.
    Purged(u64, bool),
    Closed,
}

/// A database, as its writer uses it.
pub trait Database {
    /// Takes steps in one transaction. Where it fails it is not known whether it took them.
    fn write(&mut self, steps: &[&Step]) -> impl Future<Output = Result<Vec<Done>, Error>>;

    /// Waits until what other guards do is to be looked at.
    fn told(&mut self) -> impl Future<Output = ()>;

    /// Whether it is to be looked at by now.
    fn is_told(&mut self) -> bool;

    /// What it is known by, once it was reached.
    fn mark(&self) -> Option<Mark>;

    /// Ends it: what was written is where it is to be.
    fn close(self);
}

/// What a caller is given of its step.
type Given = Result<(Done, Option<Held>), Error>;

/// Who asks for a step, and the thread that it is of.
struct Caller {
    told: oneshot::Sender<Given>,
    home: usize,
    tasks: Handle,
}

/// What a caller is told.
type Told = (oneshot::Sender<Given>, Given);

/// What callers are told of one transaction, by their threads.
#[derive(Default)]
struct Tidings(BTreeMap<usize, (Handle, Vec<Told>)>);

impl Caller {
    /// One of this thread; and how it is told.
    fn here() -> (Caller, oneshot::Receiver<Given>) {
        let (told, answer) = oneshot::channel();
        (Caller { told, home: here(), tasks: Handle::current() }, answer)
    }
}

impl Tidings {
    /// What one is to be told.
    fn add(&mut self, caller: Caller, given: Given) {
        let Caller { told, home, tasks } = caller;
        self.0.entry(home).or_insert_with(|| (tasks, Vec::new())).1.push((told, given));
    }

    /// Tells all of it. A thread is woken once for all of its callers.
    fn tell(self) {
        for (tasks, given) in self.0.into_values() {
            tasks.spawn(async move {
                // (who is gone drops what is held, and that undoes it)
                given.into_iter().for_each(|(told, given)| _ = told.send(given));
            });
        }
    }
}

/// A step that waits, and who is told of it.
struct Job {
    step: Step,
    caller: Option<Caller>,
    /// Its time, until it is taken for the first time; and that it waits for what another has begun.
    takes: Option<Takes>,
    waits: Option<Waits>,
}

impl Step {
    /// What it is in counters.
    fn counted(&self) -> metrics::Step {
        match self {
            Step::Begin(..) => metrics::Step::Begin,
            Step::Finish(..) => metrics::Step::Finish,
            Step::Undo(_) => metrics::Step::Undo,
            Step::Purge(..) => metrics::Step::Purge,
            Step::Close => metrics::Step::Close,
        }
    }
}

impl Job {
    fn new(step: Step, caller: Option<Caller>) -> Job {
        Job { takes: Some(metrics().takes(step.counted())), step, caller, waits: None }
    }

    fn tell(self, given: Given) {
        if let Some(caller) = self.caller {
            _ = caller.told.send(given);
        }
    }
}

/// A request that is begun for a caller, and undone where the caller is gone before it knows.
struct Held {
    key: Key,
    jobs: UnboundedSender<Job>,
    is_known: bool,
}

impl Drop for Held {
    fn drop(&mut self) {
        if !self.is_known {
            let step = Step::Undo(self.key.clone());
            _ = self.jobs.send(Job::new(step, None));
        }
    }
}

/// What gives steps to a writer.
pub struct Steps {
    jobs: UnboundedSender<Job>,
    known: Arc<Known>,
}

/// What is known of a database without asking it.
#[derive(Default)]
struct Known {
    is_ready: AtomicBool,
    mark: Mutex<Option<Mark>>,
}

impl Steps {
    async fn ask(&self, step: Step) -> Given {
        let (caller, answer) = Caller::here();
        let closed = || Error::Away("the store is closed".into());
        self.jobs.send(Job::new(step, Some(caller))).map_err(|_| closed())?;
        answer.await.map_err(|_| closed())?
    }

    pub async fn begin(&self, key: &Key, expiration: u64) -> Result<Begun, Error> {
        match self.ask(Step::Begin(key.clone(), expiration)).await? {
            (Done::Begun(begun), held) => {
                if let Some(mut held) = held {
                    held.is_known = true;
                }
                Ok(begun)
            }
            (other, _) => Err(unasked(&other)),
        }
    }

    pub async fn finish(&self, key: &Key, outcome: Outcome) -> Result<Outcome, Error> {
        match self.ask(Step::Finish(key.clone(), outcome)).await? {
            (Done::Finished(finished), _) => finished,
            (other, _) => Err(unasked(&other)),
        }
    }

    pub async fn undo(&self, key: &Key) -> Result<(), Error> {
        self.ask(Step::Undo(key.clone())).await.map(drop)
    }

    pub async fn purge(&self, now: u64) -> Result<u64, Error> {
        match self.ask(Step::Purge(now, 0)).await? {
            (Done::Purged(count, _), _) => Ok(count),
            (other, _) => Err(unasked(&other)),
        }
    }

    pub async fn close(&self) {
        _ = self.ask(Step::Close).await;
    }

    pub fn is_ready(&self) -> bool {
        self.known.is_ready.load(Ordering::Relaxed)
    }

    pub fn mark(&self) -> Option<Mark> {
        locked(&self.known.mark).clone()
    }
}

impl Drop for Steps {
    fn drop(&mut self) {
        _ = self.jobs.send(Job::new(Step::Close, None));
    }
}

fn unasked(done: &Done) -> Error {
    Error::Away(format!("the store answers {done:?}, which was not asked"))
}

/// Opens a database in a thread of its own, and begins to write to it.
///
/// # Errors
///
/// As `open` says; or there is no thread for it.
pub async fn start<D: Database>(
    open: impl FnOnce() -> Result<D, Error> + Send + 'static,
) -> Result<Steps, Error> {
    let (jobs, waiting) = unbounded_channel();
    let (opened, answer) = oneshot::channel();
    let known = Arc::<Known>::default();
    let steps = Steps { jobs: jobs.clone(), known: known.clone() };
    let unusable = |error: &dyn std::error::Error| Error::Unusable(error.to_string());
    let runtime = Builder::new_current_thread().enable_all().build();
    let runtime = runtime.map_err(|error| unusable(&error))?;
    let thread = thread::Builder::new().name("store".into()).spawn(move || {
        let _entered = runtime.enter();
        match open() {
            Ok(database) => {
                let writer = Writer::new(database, jobs, known);
                _ = opened.send(Ok(()));
                let (database, closers) = runtime.block_on(writer.run(waiting));
                database.close();
                for closer in closers {
                    closer.tell(Ok((Done::Closed, None)));
                }
            }
            Err(error) => _ = opened.send(Err(error)),
        }
    });
    thread.map_err(|error| unusable(&error))?;
    answer.await.map_err(|error| unusable(&error))??;
    Ok(steps)
}

/// A count of steps, for what takes no other numbers.
fn precise(count: usize) -> f64 {
    u32::try_from(count).map_or(f64::MAX, f64::from)
}

/// What writes to a database.
struct Writer<D> {
    database: D,
    jobs: UnboundedSender<Job>,
    known: Arc<Known>,
    /// What comes next.
    queue: VecDeque<Job>,
    /// Who wait for what another request or guard has begun.
    waiting: HashMap<Key, Vec<Job>>,
    /// What callers of this guard have begun.
    begun: HashSet<Key>,
    /// What is told once all that a transaction took is known.
    tidings: Tidings,
    /// Why it can't be written, and when it is tried again.
    trouble: Option<Error>,
    next: Instant,
    /// How many steps may come along with the next transaction, and until when they are waited for.
    all: usize,
    until: Instant,
    is_closed: bool,
    /// Who closes it: they are told once it is closed.
    closers: Vec<Job>,
}

impl<D: Database> Writer<D> {
    fn new(database: D, jobs: UnboundedSender<Job>, known: Arc<Known>) -> Writer<D> {
        *locked(&known.mark) = database.mark();
        Writer {
            database,
            jobs,
            known,
            queue: VecDeque::new(),
            waiting: HashMap::new(),
            begun: HashSet::new(),
            tidings: Tidings::default(),
            trouble: None,
            next: Instant::now(),
            all: 0,
            until: Instant::now(),
            is_closed: false,
            closers: Vec::new(),
        }
    }

    /// Takes steps until it is to be closed: then gives the database back, and who is to be told.
    async fn run(mut self, mut jobs: UnboundedReceiver<Job>) -> (D, Vec<Job>) {
        // (what is wrong shows before anybody asks)
        self.write(Vec::new()).await;
        while !self.is_closed {
            if self.trouble.is_some() {
                self.decline();
                select! {
                    () = sleep_until(self.next) => {}
                    Some(job) = jobs.recv() => {
                        self.queue.push_back(job);
                        continue;
                    }
                }
            } else if self.queue.is_empty() {
                select! {
                    () = self.database.told() => self.look_again(),
                    Some(job) = jobs.recv() => self.queue.push_back(job),
                }
            }
            if self.database.is_told() {
                self.look_again();
            }
            self.gather(&mut jobs);
            let batch: Vec<Job> = self.queue.drain(..self.queue.len().min(MOST)).collect();
            let (told, began) = (batch.len(), Instant::now());
            self.write(batch).await;
            self.take(&mut jobs);
            self.all = told + self.queue.len();
            self.until = Instant::now() + began.elapsed() / PART;
        }
        (self.database, self.closers)
    }

    /// Takes the steps that have come.
    fn take(&mut self, jobs: &mut UnboundedReceiver<Job>) {
        self.queue.extend(iter::from_fn(|| jobs.try_recv().ok()));
    }

    /// Takes the steps that have come. Who was told of the last transaction soon has its next step:
    /// that one comes along, where waiting for it takes little beside a transaction.
    fn gather(&mut self, jobs: &mut UnboundedReceiver<Job>) {
        self.take(jobs);
        while self.queue.len() < self.all && Instant::now() < self.until {
            thread::sleep(LOOK);
            self.take(jobs);
        }
    }

    /// All who wait look again.
    fn look_again(&mut self) {
        self.queue.extend(mem::take(&mut self.waiting).into_values().flatten());
    }

    /// Tells those who need the database now that it is away. What is begun waits.
    fn decline(&mut self) {
        let Some(why) = self.trouble.clone() else { return };
        for job in mem::take(&mut self.queue) {
            match job.step {
                Step::Finish(..) | Step::Undo(_) => self.queue.push_back(job),
                Step::Begin(..) | Step::Purge(..) => job.tell(Err(why.clone())),
                Step::Close => self.closes(job),
            }
        }
    }

    /// Writes steps in one transaction.
    async fn write(&mut self, batch: Vec<Job>) {
        let steps: Vec<&Step> = batch.iter().map(|job| &job.step).collect();
        let began = Instant::now();
        let written = self.database.write(&steps).await;
        metrics().writes.observe(began.elapsed().as_secs_f64());
        metrics().batches.observe(precise(steps.len()));
        match written {
            Ok(dones) => {
                if self.trouble.take().is_some() {
                    info!("the store can be written again");
                }
                self.known.is_ready.store(true, Ordering::Relaxed);
                // (before anybody is told of what it has taken)
                *locked(&self.known.mark) = self.database.mark();
                for (job, done) in batch.into_iter().zip(dones) {
                    self.done(job, done);
                }
                mem::take(&mut self.tidings).tell();
            }
            Err(why) => {
                if self.trouble.as_ref() != Some(&why) {
                    error!("the store: {why}");
                }
                self.known.is_ready.store(false, Ordering::Relaxed);
                self.failed(batch);
                self.trouble = Some(why);
                self.next = Instant::now() + PAUSE;
            }
        }
    }

    /// What comes of a step that was taken.
    fn done(&mut self, mut job: Job, done: Done) {
        let mut held = None;
        job.takes = None;
        match (&job.step, &done) {
            (Step::Begin(key, _), Done::Waits) => {
                job.waits.get_or_insert_with(|| metrics().waits());
                self.waiting.entry(key.clone()).or_default().push(job);
                return;
            }
            (Step::Begin(key, _), Done::Begun(Begun::New)) => {
                self.begun.insert(key.clone());
                let (key, jobs) = (key.clone(), self.jobs.clone());
                held = Some(Held { key, jobs, is_known: false });
            }
            (Step::Finish(key, _) | Step::Undo(key), _) => {
                self.begun.remove(key);
                self.queue.extend(self.waiting.remove(key).into_iter().flatten());
            }
            (Step::Purge(now, _), Done::Purged(count, true)) => {
                let step = Step::Purge(*now, *count);
                self.queue.push_back(Job { step, ..job });
                return;
            }
            (_, Done::Again) => {
                self.queue.push_back(job);
                return;
            }
            (Step::Close, _) => return self.closes(job),
            _ => {}
        }
        if let Some(caller) = job.caller {
            self.tidings.add(caller, Ok((done, held)));
        }
    }

    /// This is the last step.
    fn closes(&mut self, job: Job) {
        self.is_closed = true;
        self.closers.push(job);
    }

    /// Steps of which it is not known whether they were taken. They come again: those that begin
    /// are undone, where it is not this guard's caller who had begun that request before.
    fn failed(&mut self, batch: Vec<Job>) {
        for job in batch.into_iter().rev() {
            let undo = match &job.step {
                Step::Begin(key, _) if !self.begun.contains(key) => Some(Step::Undo(key.clone())),
                _ => None,
            };
            if let Some(step) = undo {
                self.queue.push_front(Job::new(step, None));
            }
            self.queue.push_back(job);
        }
    }
}
