//! Moments.

use crate::sys;
use core::ops::Add;
use core::time::Duration;
#[cfg(feature = "std")]
use std::time::{SystemTime, UNIX_EPOCH};

/// A moment: a count of 100 ns since 15 October 1582, 00:00 UTC, as the expiration of FT_REQUEST is
/// one.
#[derive(Clone, Copy, Debug, PartialEq, Eq, PartialOrd, Ord, Hash)]
pub struct Moment(pub u64);

impl Moment {
    /// The last moment: what expires then never does.
    pub const LAST: Moment = Moment(u64::MAX);

    /// The moment that is so long after the beginning of 1970, 00:00 UTC.
    #[must_use]
    pub fn after_1970(since: Duration) -> Moment {
        Moment(sys::lr_moment(since.as_secs(), since.subsec_nanos()))
    }

    /// The moment that the system's clock says.
    #[cfg(feature = "std")]
    #[must_use]
    pub fn now() -> Moment {
        SystemTime::now().into()
    }
}

/// A time before 1970 is taken as its beginning.
#[cfg(feature = "std")]
impl From<SystemTime> for Moment {
    fn from(time: SystemTime) -> Moment {
        Moment::after_1970(time.duration_since(UNIX_EPOCH).unwrap_or(Duration::ZERO))
    }
}

/// How many times 100 ns a duration has.
fn count_of(duration: Duration) -> u64 {
    u64::try_from(duration.as_nanos() / 100).unwrap_or(u64::MAX)
}

/// Later by a duration; the last moment, where it would lie beyond.
impl Add<Duration> for Moment {
    type Output = Moment;

    fn add(self, duration: Duration) -> Moment {
        Moment(self.0.saturating_add(count_of(duration)))
    }
}

#[cfg(test)]
mod tests {
    use super::*;

    #[test]
    fn a_moment_counts_from_1582() {
        assert_eq!(Moment::after_1970(Duration::ZERO), Moment(122_192_928_000_000_000));
        let later = Duration::new(1, 250);
        assert_eq!(Moment::after_1970(later), Moment(122_192_928_010_000_002));
        assert_eq!(Moment::after_1970(Duration::MAX), Moment::LAST);
    }

    #[test]
    #[cfg(feature = "std")]
    fn a_time_is_a_moment() {
        let later = Duration::new(1, 250);
        assert_eq!(Moment::from(UNIX_EPOCH + later), Moment::after_1970(later));
        assert_eq!(Moment::from(UNIX_EPOCH - Duration::from_secs(9)), Moment::from(UNIX_EPOCH));
        assert!(Moment::now() > Moment::from(UNIX_EPOCH));
    }

    #[test]
    fn a_duration_leads_to_the_last_moment_at_most() {
        assert_eq!(Moment(5) + Duration::from_micros(1), Moment(15));
        assert_eq!(Moment(5) + Duration::MAX, Moment::LAST);
        assert_eq!(Moment::LAST + Duration::from_secs(1), Moment::LAST);
    }
}
