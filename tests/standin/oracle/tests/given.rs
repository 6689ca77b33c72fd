//! The given files stand here byte for byte.

use std::process::Command;

#[test]
fn sums_of_the_given_files() {
    let here = concat!(env!("CARGO_MANIFEST_DIR"), "/src/given");
    let sums = concat!(env!("CARGO_MANIFEST_DIR"), "/given.sha256");
    let out = Command::new("sha256sum")
        .args(["--check", "--strict", sums])
        .current_dir(here)
        .output()
        .expect("sha256sum runs");
    assert!(out.status.success(), "{}", String::from_utf8_lossy(&out.stdout));
    assert_eq!(String::from_utf8_lossy(&out.stdout).matches(": OK").count(), 7);
    assert_eq!(std::fs::read_dir(here).unwrap().count(), 7, "nothing of ours stands there");
}
