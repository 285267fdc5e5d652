//! Finds the library in the folder `LEMONRUDDER_LIB_DIR`; else where pkg-config says; else in the
//! repository's `out/lib`; and links the archive, or with `LEMONRUDDER_STATIC=0` the shared one.
//! Where it is of another version than the crate wants, the build ends.

use std::env;
use std::fs;
use std::path::{Path, PathBuf};
use std::process::Command;

#[path = "src/versions.rs"]
mod versions;

/// What is linked: how the linker calls it, and its file.
const KINDS: [(&str, &str); 2] = [("static", "liblemonrudder.a"), ("dylib", "liblemonrudder.so")];

/// The folder that the environment names.
fn named() -> Option<PathBuf> {
    env::var_os("LEMONRUDDER_LIB_DIR").map(PathBuf::from)
}

/// The folder that pkg-config knows.
fn installed() -> Option<PathBuf> {
    let program = env::var_os("PKG_CONFIG").unwrap_or("pkg-config".into());
    let words = ["--variable=libdir", "lemonrudder"];
    let said = Command::new(program).args(words).output().ok()?;
    let folder = String::from_utf8(said.stdout).ok()?;
    (said.status.success() && !folder.trim().is_empty()).then(|| PathBuf::from(folder.trim()))
}

/// The folder into which the repository's `./build library` builds.
fn built() -> Option<PathBuf> {
    let folder = Path::new(&env::var_os("CARGO_MANIFEST_DIR")?).join("../../../out/lib");
    folder.is_dir().then_some(folder)
}

/// Looks whether the library in a folder is one for this crate, by the file for pkg-config that is
/// installed with it.
fn check_version(folder: &Path) {
    let package = folder.join("pkgconfig/lemonrudder.pc");
    let wanted = env!("CARGO_PKG_VERSION");
    let text = fs::read_to_string(&package).unwrap_or_default();
    match text.lines().find_map(|line| line.strip_prefix("Version:")) {
        Some(version) => assert!(
            versions::serves(version, wanted),
            "the library in {} is of version {}: this crate wants {wanted}, or a later one of its series",
            folder.display(),
            version.trim(),
        ),
        None => println!("cargo:warning={} does not say which version the library is", package.display()),
    }
    println!("cargo:rerun-if-changed={}", package.display());
}

fn main() {
    let words = ["LEMONRUDDER_LIB_DIR", "LEMONRUDDER_STATIC", "PKG_CONFIG"];
    for name in words.into_iter().chain(["PKG_CONFIG_PATH", "PKG_CONFIG_LIBDIR"]) {
        println!("cargo:rerun-if-env-changed={name}");
    }
    let is_shared = env::var_os("LEMONRUDDER_STATIC").is_some_and(|value| value == "0");
    let (kind, file) = KINDS[usize::from(is_shared)];
    let Some(folder) = named().or_else(installed).or_else(built) else {
        panic!("{file} is not found: build it by ./build library, and name its folder in LEMONRUDDER_LIB_DIR");
    };
    let library = folder.join(file);
    assert!(library.is_file(), "there is no {}", library.display());
    check_version(&folder);
    println!("cargo:rerun-if-changed={}", library.display());
    println!("cargo:rustc-link-search=native={}", folder.display());
    println!("cargo:rustc-link-lib={kind}=lemonrudder");
}
