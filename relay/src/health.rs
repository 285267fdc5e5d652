//! Whether a connection to a server or a guard is alive, by what comes on it and what does not.

use crate::pool::Loss;
use std::time::{Duration, Instant};

/// Why a connection ends that answers nothing, and one that ends no message.
pub const SILENT: &str = "nothing came on it any more";
pub const STOPPED: &str = "a message stopped amid its octets";
/// After how long without octets a guard is asked for a sign, where requests wait for it, and how long
/// it has for that.
const QUIET: Duration = Duration::from_secs(3);
const PATIENCE: Duration = Duration::from_secs(3);
/// How often it has twice as long, after connections on which it gave none.
const DOUBLED: u32 = 4;
/// How many octets a second leave at least, behind which a question waits; and how many of a message
/// come at least, or it is as good as none.
const LEAVE: u32 = 16 << 10;
const COME: u32 = 1 << 10;

/// What is known of a connection.
#[derive(Debug)]
pub struct Watch {
    /// When octets came last.
    heard: Instant,
    /// The message whose octets have not all come.
    amid: Option<Amid>,
    /// How long such a message may bring nothing.
    stalled: Duration,
    /// How long a guard has for a sign; none for a server, which is not asked.
    patience: Option<Duration>,
    /// Until when it has for the one that it is asked for.
    asked: Option<Instant>,
    /// How many octets were to be written, and by when those have left.
    given: u64,
    left: Instant,
}

/// What came of a message in a time that is measured.
#[derive(Debug)]
struct Amid {
    since: Instant,
    octets: u64,
}

/// What follows for a connection.
#[derive(Clone, Copy, Debug, PartialEq, Eq)]
pub enum Sign {
    Fine,
    /// The guard is asked for a sign.
    Asks,
    Ends(&'static str, Loss),
}

impl Watch {
    /// One from now on of a server's connection, whose messages may bring nothing for so long.
    #[must_use]
    pub fn new(now: Instant, stalled: Duration) -> Watch {
        let (amid, patience, asked) = (None, None, None);
        Watch { heard: now, amid, stalled, patience, asked, given: 0, left: now }
    }

    /// The same of a guard's, which gave no sign on so many connections one after another before this.
    #[must_use]
    pub fn asking(self, silences: u32) -> Watch {
        Watch { patience: Some(PATIENCE * (1 << silences.min(DOUBLED))), ..self }
    }

    /// Octets came, with which a message ended or not, and of which one is outstanding or not:
    /// whether they are a sign that was asked for.
    pub fn hears(&mut self, now: Instant, octets: usize, has_ended: bool, is_amid: bool) -> bool {
        self.heard = now;
        self.patience = self.patience.map(|_| PATIENCE);
        self.amid = match self.amid.take().filter(|_| !has_ended) {
            _ if !is_amid => None,
            None => Some(Amid { since: now, octets: 0 }),
            Some(amid) => Some(Amid { octets: amid.octets + octets as u64, ..amid }),
        };
        self.asked.take().is_some()
    }

    /// What follows where so many requests wait, and so many octets were to be written in all.
    pub fn judges(&mut self, now: Instant, load: usize, given: u64) -> Sign {
        if self.has_stopped(now) {
            return Sign::Ends(STOPPED, Loss::Lost);
        }
        let Some(patience) = self.patience else { return Sign::Fine };
        let leaves = Duration::from_secs(given - self.given) / LEAVE;
        (self.left, self.given) = (self.left.max(now) + leaves, given);
        match self.asked {
            Some(until) if until <= now => Sign::Ends(SILENT, Loss::Silent),
            None if load > 0 && self.heard + QUIET <= now => {
                self.asked = Some(self.left + patience);
                Sign::Asks
            }
            _ => Sign::Fine,
        }
    }

    /// Whether a message brings nothing for too long, or less than it has to in that time.
    fn has_stopped(&mut self, now: Instant) -> bool {
        let (stalled, heard) = (self.stalled, self.heard);
        let Some(amid) = &mut self.amid else { return false };
        if heard + stalled <= now {
            return true;
        }
        if amid.since + stalled > now {
            return false;
        }
        let is_slow = Duration::from_secs(amid.octets) < (now - amid.since) * COME;
        *amid = Amid { since: now, octets: 0 };
        is_slow
    }
}

#[cfg(test)]
mod tests {
    use super::*;

    const SECOND: Duration = Duration::from_secs(1);

    #[test]
    fn a_guard_is_asked_and_has_its_time() {
        let start = Instant::now();
        for (silences, seconds) in [(0, 3), (1, 6), (4, 48), (9, 48)] {
            let mut watch = Watch::new(start, SECOND).asking(silences);
            let at = |count| start + SECOND * count;
            let ends = Sign::Ends(SILENT, Loss::Silent);
            assert_eq!(watch.judges(at(90), 0, 0), Sign::Fine);
            assert_eq!(watch.judges(at(91), 1, 0), Sign::Asks);
            assert_eq!(watch.judges(at(90 + seconds), 1, 0), Sign::Fine);
            assert!(watch.hears(at(91 + seconds), 40, true, false));
            assert_eq!(watch.judges(at(93 + seconds), 1, 0), Sign::Fine);
            assert_eq!(watch.judges(at(94 + seconds), 1, 0), Sign::Asks);
            assert_eq!(watch.judges(at(96 + seconds), 1, 0), Sign::Fine);
            assert_eq!(watch.judges(at(97 + seconds), 1, 0), ends);
            assert!(watch.hears(at(98 + seconds), 40, true, false));
            assert!(!watch.hears(at(99 + seconds), 40, true, false));
            let mut watch = Watch::new(start, SECOND).asking(silences);
            assert_eq!(watch.judges(at(2), 1, 0), Sign::Fine);
            assert_eq!(watch.judges(at(3), 1, 0), Sign::Asks);
            assert_eq!(watch.judges(at(2 + seconds), 1, 0), Sign::Fine);
            assert_eq!(watch.judges(at(3 + seconds), 1, 0), ends);
        }
    }

    #[test]
    fn what_is_written_has_its_time_to_leave() {
        let start = Instant::now();
        let mut watch = Watch::new(start, SECOND).asking(0);
        let (at, octets) = (|count| start + SECOND * count, u64::from(LEAVE));
        assert_eq!(watch.judges(at(0), 1, 10 * octets), Sign::Fine);
        assert_eq!(watch.judges(at(4), 1, 12 * octets), Sign::Asks);
        assert_eq!(watch.judges(at(14), 1, 12 * octets), Sign::Fine);
        assert_eq!(watch.judges(at(15), 1, 12 * octets), Sign::Ends(SILENT, Loss::Silent));
    }

    #[test]
    fn a_server_is_not_asked() {
        let start = Instant::now();
        let mut watch = Watch::new(start, SECOND);
        assert_eq!(watch.judges(start + 900 * SECOND, 7, 1), Sign::Fine);
    }

    #[test]
    fn a_message_goes_on_or_ends_its_connection() {
        let start = Instant::now();
        let (at, stopped) = (|count| start + SECOND * count, Sign::Ends(STOPPED, Loss::Lost));
        let of = |octets: usize| {
            let mut watch = Watch::new(start, SECOND * 4);
            assert!(!watch.hears(at(0), 1000, false, true));
            for second in 1..9 {
                assert!(!watch.hears(at(second), octets, false, true));
                if watch.judges(at(second), 1, 0) != Sign::Fine {
                    return second;
                }
            }
            0
        };
        let least = usize::try_from(COME).unwrap();
        assert_eq!((of(least), of(least - 1), of(1)), (0, 4, 4));
        let mut watch = Watch::new(start, SECOND * 4);
        watch.hears(at(0), 1 << 20, false, true);
        assert_eq!(watch.judges(at(3), 1, 0), Sign::Fine);
        assert_eq!(watch.judges(at(4), 1, 0), stopped);
        for (has_ended, is_amid, sign) in
            [(true, false, Sign::Fine), (true, true, Sign::Fine), (false, true, stopped)]
        {
            let mut watch = Watch::new(start, SECOND * 4);
            watch.hears(at(0), 1, false, true);
            watch.hears(at(3), 1, has_ended, is_amid);
            assert_eq!(watch.judges(at(6), 1, 0), sign, "{has_ended} {is_amid}");
        }
    }
}
