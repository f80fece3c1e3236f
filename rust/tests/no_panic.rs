//! The compiled code has no call of a panic: nm lists what no_panic/ links in.
#![allow(clippy::expect_used, clippy::panic, clippy::unwrap_used)]

use std::path::PathBuf;
use std::process::Command;

const PACKAGE: &str = concat!(env!("CARGO_MANIFEST_DIR"), "/tests/no_panic");

/// The functions of no_panic/.
const OWN: [&str; 14] = [
    "actions",
    "answers",
    "bus",
    "calls",
    "debug",
    "devices",
    "empty",
    "numbers",
    "one_action",
    "outcomes",
    "ports",
    "refused",
    "unlisted",
    "walk",
];

/// Compiles no_panic/ and returns nm's symbols that are one of its functions or
/// a panic of `core`.
fn symbols(target: &str, features: &[&str]) -> Vec<String> {
    let target = PathBuf::from(env!("CARGO_TARGET_TMPDIR")).join(target);
    let built = Command::new(env!("CARGO"))
        .args(["build", "--release", "--offline", "--quiet"])
        .args(features)
        .arg("--target-dir")
        .arg(&target)
        .current_dir(PACKAGE)
        .env("LIDRUMAK_LIBRARY", env!("LIDRUMAK_FOLDER"))
        .output()
        .unwrap();
    let errors = String::from_utf8_lossy(&built.stderr);
    assert!(built.status.success(), "{errors}");
    let library = target.join("release/libno_panic.a");
    let listed = Command::new("nm")
        .arg(library)
        .output()
        .expect("the program nm (of binutils) is needed for this test");
    assert!(listed.status.success(), "nm: {:?}", listed.status);
    let lines = String::from_utf8_lossy(&listed.stdout);
    let mut wanted: Vec<String> = lines
        .lines()
        .filter_map(|line| line.split(' ').next_back())
        .filter(|symbol| is_panic(symbol) || OWN.contains(symbol))
        .map(str::to_string)
        .collect();
    wanted.sort();
    wanted
}

fn is_panic(symbol: &str) -> bool {
    symbol.contains("core9panicking")
}

#[test]
fn no_public_function_can_panic() {
    assert_eq!(symbols("no_panic", &[]), OWN);
}

#[test]
fn a_function_that_can_panic_is_seen() {
    let symbols = symbols("no_panic_control", &["--features", "control"]);
    assert!(symbols.iter().any(|symbol| is_panic(symbol)));
}
