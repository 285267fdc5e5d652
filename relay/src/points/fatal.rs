//! What is done at a point that the environment names.

use std::env;
use std::process::{abort, id, Command};
use std::sync::atomic::{AtomicU64, Ordering};
use std::sync::OnceLock;
use std::thread::sleep;
use std::time::Duration;

/// The variables that name the point at which it aborts, and the one at which it stops until it is
/// continued, as `sent`, or as `sent:3` for its third time.
const ABORTS: &str = "LEMONRUDDER_KILL";
const STOPS: &str = "LEMONRUDDER_STOP";

/// A point, and how often it is passed before something is done there.
struct Fatal {
    name: String,
    left: AtomicU64,
}

impl Fatal {
    /// The point that some words name.
    fn of(words: &str) -> Fatal {
        let (name, count) = words.split_once(':').unwrap_or((words, "1"));
        Fatal { name: name.to_owned(), left: AtomicU64::new(count.parse().unwrap_or(1)) }
    }

    /// Whether it is to be done here.
    fn is_reached(&self, name: &str) -> bool {
        self.name == name && self.left.fetch_sub(1, Ordering::Relaxed) == 1
    }
}

/// Aborts or stops the program where the environment says that it does at this point.
pub fn point(name: &str) {
    static FATAL: OnceLock<[Option<Fatal>; 2]> = OnceLock::new();
    let named = |variable| env::var(variable).ok().map(|words| Fatal::of(&words));
    let fatal = FATAL.get_or_init(|| [ABORTS, STOPS].map(named));
    let [aborts, stops] =
        fatal.each_ref().map(|it| it.as_ref().is_some_and(|it| it.is_reached(name)));
    if aborts {
        abort();
    }
    if stops {
        _ = Command::new("kill").args(["-STOP", &id().to_string()]).status();
        // (all threads stop soon)
        sleep(Duration::from_secs(1));
    }
}

#[cfg(test)]
mod tests {
    use super::*;

    #[test]
    fn a_point_is_fatal_the_time_that_is_named() {
        for (words, times) in [("sent", vec![1]), ("sent:3", vec![3]), ("received", vec![])] {
            let fatal = Fatal::of(words);
            let reached: Vec<u32> = (1..5).filter(|_| fatal.is_reached("sent")).collect();
            assert_eq!(reached, times, "{words}");
        }
    }
}
