//! Named points at which the program aborts or stops, for tests of what others do then. Only a build
//! with the feature `points` does so: that of tests, and none that is installed or packed.

#[cfg(feature = "points")]
mod fatal;

#[cfg(feature = "points")]
pub use fatal::point;

/// Passes a point.
#[cfg(not(feature = "points"))]
pub fn point(_: &str) {}
