//! Where the build script finds the library, and what it says where it can't.
#![cfg(unix)]
#![allow(clippy::panic, clippy::unwrap_used)]

use std::fs;
use std::os::unix::fs::PermissionsExt;
use std::path::{Path, PathBuf};
use std::process::Command;

/// A folder like the repository, with the build script compiled.
fn repository(name: &str) -> PathBuf {
    let root = PathBuf::from(env!("CARGO_TARGET_TMPDIR")).join(name);
    drop(fs::remove_dir_all(&root));
    for folder in ["rust", "tools", "elsewhere", "crates/lidrumak_c/out"] {
        fs::create_dir_all(root.join(folder)).unwrap();
    }
    let compiled = Command::new("rustc")
        .args(["--edition=2021", "-o"])
        .arg(root.join("build"))
        .arg(concat!(env!("CARGO_MANIFEST_DIR"), "/build.rs"))
        .output()
        .unwrap();
    assert!(compiled.status.success());
    root.canonicalize().unwrap()
}

fn put_library(folder: &Path) {
    fs::create_dir_all(folder).unwrap();
    fs::write(folder.join("liblidrumak.a"), "").unwrap();
}

/// A program called `rt` that does this.
fn put_rt(root: &Path, script: &str) {
    let rt = root.join("tools/rt");
    fs::write(&rt, format!("#!/bin/sh\n{script}\n")).unwrap();
    fs::set_permissions(&rt, fs::Permissions::from_mode(0o755)).unwrap();
}

/// The build script's line on where it links from, or on what is wrong.
fn build(root: &Path, variable: Option<&Path>) -> String {
    build_for("x86_64", root, variable)
}

fn build_for(target: &str, root: &Path, variable: Option<&Path>) -> String {
    let mut command = Command::new(root.join("build"));
    command
        .current_dir(root.join("rust"))
        .env("PATH", root.join("tools"))
        .env("CARGO_CFG_TARGET_ARCH", target)
        .env_remove("LIDRUMAK_LIBRARY");
    if let Some(folder) = variable {
        command.env("LIDRUMAK_LIBRARY", folder);
    }
    let output = command.output().unwrap();
    assert!(output.status.success());
    let text = String::from_utf8(output.stdout).unwrap();
    let wanted = ["cargo::rustc-link-search=", "cargo::error="];
    let mut lines = text
        .lines()
        .filter(|line| wanted.iter().any(|start| line.starts_with(start)));
    let line = lines.next().unwrap().to_string();
    assert_eq!(lines.next(), None);
    line
}

fn linked(folder: &Path) -> String {
    format!("cargo::rustc-link-search=native={}", folder.display())
}

#[test]
fn the_variable_comes_first() {
    let root = repository("build_variable");
    let (named, usual) = (root.join("elsewhere"), root.join("target/staticlib"));
    put_library(&usual);
    assert_eq!(
        build(&root, Some(&named)),
        format!(
            "cargo::error=LIDRUMAK_LIBRARY names {}, which has no liblidrumak.a",
            named.display()
        )
    );
    put_library(&named);
    assert_eq!(build(&root, Some(&named)), linked(&named));
    assert_eq!(build(&root, None), linked(&usual));
}

#[test]
fn without_a_library_rt_writes_it() {
    let root = repository("build_rt");
    let line = "liblidrumak.a is missing: set LIDRUMAK_LIBRARY to its folder, \
        or run 'make port' in the repository";
    assert_eq!(build(&root, None), format!("cargo::error={line}"));

    put_rt(&root, "echo first >&2; echo 'no proof' >&2; exit 1");
    let line = "'rt lib' in crates/lidrumak_c failed: no proof";
    assert_eq!(build(&root, None), format!("cargo::error={line}"));

    put_rt(&root, "exit 0");
    let line = "'rt lib' in crates/lidrumak_c ended well and wrote no out/liblidrumak_c.a";
    assert_eq!(build(&root, None), format!("cargo::error={line}"));

    let library = "target/staticlib/liblidrumak.a";
    put_rt(&root, "echo \"$@\" > out/liblidrumak_c.a");
    assert_eq!(build(&root, None), linked(&root.join("target/staticlib")));
    let words = fs::read_to_string(root.join(library)).unwrap();
    assert_eq!(words, "lib\n");
}

#[test]
fn the_usual_library_is_for_x86_64_alone() {
    let root = repository("build_target");
    let (named, usual) = (root.join("elsewhere"), root.join("target/staticlib"));
    put_library(&named);
    put_library(&usual);
    assert_eq!(build_for("x86_64", &root, None), linked(&usual));
    let line = "'rt lib' in crates/lidrumak_c writes liblidrumak.a for x86_64, and the target is \
        aarch64: set LIDRUMAK_LIBRARY to the folder of one for that";
    assert_eq!(
        build_for("aarch64", &root, None),
        format!("cargo::error={line}")
    );
    assert_eq!(build_for("aarch64", &root, Some(&named)), linked(&named));
}
