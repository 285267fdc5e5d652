//! A guard that requests are sent to: whether it can be reached.

use crate::mark::Mark;
use crate::pool::Pool;
use crate::wire::{self, locked};
use lemonrudder::{write, Order, Version};
use std::io;
use std::sync::{self, Arc};
use std::time::Duration;
use tokio::io::{AsyncReadExt, AsyncWriteExt};
use tokio::sync::{watch, Mutex};
use tokio::time::{sleep, timeout, Instant};
use tracing::{info, warn};

/// How long a guard has to answer whether it is there.
const PATIENCE: Duration = Duration::from_secs(3);
/// For how long its answer is taken for granted.
const TRUST: Duration = Duration::from_secs(2);
/// The first and the longest pause between the attempts to reach a guard.
const PAUSES: (Duration, Duration) = (Duration::from_millis(50), Duration::from_secs(1));

/// A guard.
pub struct Upstream {
    address: String,
    pool: Arc<Pool>,
    /// Whether it can be reached, as far as is known.
    is_up: watch::Sender<bool>,
    /// Told, where it can be reached again.
    ups: Arc<watch::Sender<u64>>,
    answered: Mutex<Option<Instant>>,
    /// What its store is known by, as it told last.
    mark: sync::Mutex<Option<Mark>>,
}

impl Upstream {
    /// A guard at an address, of which nothing is known.
    pub fn new(address: String, pool: Arc<Pool>, ups: &Arc<watch::Sender<u64>>) -> Arc<Upstream> {
        let (is_up, ups) = (watch::channel(true).0, ups.clone());
        let (answered, mark) = (Mutex::default(), sync::Mutex::default());
        Arc::new(Upstream { address, pool, is_up, ups, answered, mark })
    }

    /// Where it is.
    pub fn address(&self) -> &str {
        &self.address
    }

    /// What its store is known by, if it has told.
    pub fn mark(&self) -> Option<Mark> {
        locked(&self.mark).clone()
    }

    /// It has told what its store is known by.
    pub fn tells(&self, mark: Mark) {
        *locked(&self.mark) = Some(mark);
    }

    /// Whether its store may know of what was sent to one of this mark.
    pub fn may_know(&self, of: Option<&Mark>) -> bool {
        let mark = locked(&self.mark);
        of.is_none_or(|of| mark.as_ref().is_none_or(|mark| mark.knows(of)))
    }

    /// Its connections.
    pub fn pool(&self) -> &Arc<Pool> {
        &self.pool
    }

    /// Whether it can be reached, as far as is known.
    pub fn is_up(&self) -> bool {
        *self.is_up.borrow()
    }

    /// Tells of each change of that.
    pub fn state(&self) -> watch::Receiver<bool> {
        self.is_up.subscribe()
    }

    /// Its host and its port.
    pub fn place(&self) -> Vec<(String, u16)> {
        wire::all_parts(std::slice::from_ref(&self.address))
    }

    /// It can't be reached: nobody uses it until it answers again.
    pub fn is_lost(self: &Arc<Self>) {
        if !self.is_up.send_replace(false) {
            return;
        }
        warn!(guard = %self.address, "it can't be reached");
        let guard = self.clone();
        tokio::spawn(async move {
            let mut pause = PAUSES.0;
            while guard.answers().await.is_err() {
                sleep(pause).await;
                pause = (pause * 2).min(PAUSES.1);
            }
            info!(guard = %guard.address, "it can be reached");
            guard.is_up.send_replace(true);
            guard.ups.send_modify(|count| *count += 1);
        });
    }

    /// Asks it whether it is there, unless it said so just now. Where it says nothing, it can't be
    /// reached.
    pub async fn checks(self: &Arc<Self>) {
        let mut answered = self.answered.lock().await;
        if !self.is_up() || answered.is_some_and(|at| at.elapsed() < TRUST) {
            return;
        }
        match self.answers().await {
            Ok(()) => *answered = Some(Instant::now()),
            Err(_) => self.is_lost(),
        }
    }

    /// Whether it answers a LocateRequest on a connection of its own.
    async fn answers(&self) -> io::Result<()> {
        let asked = write::locate_request(Version::V12, Order::Big, 1, b"");
        let asked = asked.map_err(|_| io::ErrorKind::OutOfMemory)?;
        timeout(PATIENCE, async {
            let mut stream = self.pool.connects(&self.address).await?;
            stream.write_all(&asked).await?;
            stream.flush().await?;
            let mut reply = [0; 20];
            stream.read_exact(&mut reply).await?;
            if reply[..4] == *b"GIOP" {
                Ok(())
            } else {
                Err(io::ErrorKind::InvalidData.into())
            }
        })
        .await?
    }
}
