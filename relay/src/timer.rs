//! A timer for many deadlines, one after another, most of which do not come.

use std::future::Future;
use std::pin::Pin;
use std::time::Duration;
use tokio::select;
use tokio::time::{sleep_until, Instant, Sleep};

/// What is as good as never.
const LONG: Duration = Duration::from_secs(1 << 30);

/// The deadline that is so long from now.
#[must_use]
pub fn after(time: Duration) -> Instant {
    Instant::now() + time.min(LONG)
}

/// A timer. It is not set for each deadline: where it goes off before one it is set anew.
pub struct Timer(Pin<Box<Sleep>>);

impl Timer {
    #[must_use]
    pub fn new() -> Timer {
        Timer(Box::pin(sleep_until(Instant::now())))
    }

    /// Ends at a deadline.
    async fn ends(&mut self, deadline: Instant) {
        let timer = &mut self.0;
        if timer.is_elapsed() || timer.deadline() > deadline {
            timer.as_mut().reset(deadline);
        }
        loop {
            timer.as_mut().await;
            if deadline <= timer.deadline() {
                return;
            }
            timer.as_mut().reset(deadline);
        }
    }

    /// What comes of a future before a deadline.
    pub async fn until<T>(
        &mut self,
        deadline: Instant,
        future: impl Future<Output = T>,
    ) -> Option<T> {
        select! {
            biased;
            it = future => Some(it),
            () = self.ends(deadline) => None,
        }
    }
}

#[cfg(test)]
mod tests {
    use super::*;
    use std::future::{pending, ready};

    #[tokio::test]
    async fn each_deadline_comes_in_its_time() {
        let mut timer = Timer::new();
        let begun = Instant::now();
        let after = |count| begun + Duration::from_millis(count);
        assert_eq!(timer.until(after(60_000), ready(1)).await, Some(1));
        for count in [20, 80, 50, 120] {
            assert_eq!(timer.until(after(count), pending::<()>()).await, None);
            assert!(begun.elapsed() >= Duration::from_millis(count));
            assert!(begun.elapsed() < Duration::from_secs(30));
            assert_eq!(timer.until(after(200), ready(count)).await, Some(count));
        }
    }
}
