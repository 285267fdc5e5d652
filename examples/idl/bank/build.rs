//! Has omniidl make `bank_idl.rs` of `bank.idl`.

use std::env;
use std::process::Command;

const IDL: &str = "../../bank.idl";

fn main() {
    println!("cargo:rerun-if-changed={IDL}");
    let folder = env::var("OUT_DIR").expect("cargo says where");
    let words = ["-p", "../../../idl", "-blemonrudder", "-Wbrust", &format!("-C{folder}"), IDL];
    let ended = Command::new("omniidl").args(words).status().expect("omniidl is on the path");
    assert!(ended.success(), "omniidl {}: {ended}", words.join(" "));
}
