//! Which versions of the library the crate stands over. `build.rs` asks this.

/// The major, minor and patch number of a version.
fn numbers(version: &str) -> Option<[u64; 3]> {
    let mut parts = version.trim().split('.').map(|part| part.parse().ok());
    let numbers = [parts.next()??, parts.next()??, parts.next()??];
    parts.next().is_none().then_some(numbers)
}

/// Whether a library of a version serves what was built with another: it does where it is of the
/// same series, and not older. A series is the versions of one major number; before 1.0, those of
/// one minor number.
pub fn serves(version: &str, built: &str) -> bool {
    let (Some(version), Some(built)) = (numbers(version), numbers(built)) else {
        return false;
    };
    let same = if built[0] == 0 { 2 } else { 1 };
    version[..same] == built[..same] && version >= built
}

#[cfg(test)]
mod tests {
    use super::serves;
    use std::format;

    #[test]
    fn a_series_is_served_by_what_is_not_older() {
        for version in ["0.1.2", "0.1.3", "0.1.10"] {
            assert!(serves(version, "0.1.2"), "{version}");
        }
        let others = ["0.1.1", "0.0.2", "0.2.0", "0.2.2", "0.10.2", "1.1.2", "0.1", "0.1.2.3", ""];
        for version in others {
            assert!(!serves(version, "0.1.2"), "{version}");
        }
        for version in ["1.2.5", "1.2.6", "1.3.0", "1.10.0"] {
            assert!(serves(version, "1.2.5"), "{version}");
        }
        for version in ["1.2.4", "1.1.9", "2.2.5", "0.2.5"] {
            assert!(!serves(version, "1.2.5"), "{version}");
        }
    }

    #[test]
    fn the_library_serves_the_crate() {
        let number = crate::lr_version();
        let version = format!("{}.{}.{}", number >> 16, number >> 8 & 0xff, number & 0xff);
        assert!(serves(&version, env!("CARGO_PKG_VERSION")));
    }
}
