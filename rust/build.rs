//! Finds liblidrumak.a, or has `rt` write it.

use std::env;
use std::fs;
use std::path::{Path, PathBuf};
use std::process::Command;

const VARIABLE: &str = "LIDRUMAK_LIBRARY";
const CRATE: &str = "../crates/lidrumak_c";
const WRITTEN: &str = "out/liblidrumak_c.a";
const DEFAULT: &str = "../target/staticlib";
const FILE: &str = "liblidrumak.a";
const COMMAND: &str = "'rt lib' in crates/lidrumak_c";
const ARCHITECTURE: &str = "x86_64";

fn main() {
    println!("cargo::rerun-if-changed=build.rs");
    println!("cargo::rerun-if-env-changed={VARIABLE}");
    println!("cargo::rerun-if-changed={DEFAULT}/{FILE}");
    match library_folder() {
        Ok(folder) => {
            println!("cargo::rerun-if-changed={}", folder.join(FILE).display());
            println!("cargo::rustc-link-search=native={}", folder.display());
            println!("cargo::rustc-link-lib=static=lidrumak");
            println!("cargo::rustc-env=LIDRUMAK_FOLDER={}", folder.display());
        }
        Err(line) => println!("cargo::error={line}"),
    }
}

fn library_folder() -> Result<PathBuf, String> {
    if let Some(named) = env::var_os(VARIABLE) {
        let named = PathBuf::from(named);
        return found_in(&named)
            .ok_or_else(|| format!("{VARIABLE} names {}, which has no {FILE}", named.display()));
    }
    let target = env::var("CARGO_CFG_TARGET_ARCH").unwrap_or_default();
    if target != ARCHITECTURE {
        return Err(format!(
            "{COMMAND} writes {FILE} for {ARCHITECTURE}, and the target is {target}: \
             set {VARIABLE} to the folder of one for that"
        ));
    }
    if let Some(folder) = found_in(Path::new(DEFAULT)) {
        return Ok(folder);
    }
    write_library()?;
    put_library().map_err(|_| format!("{COMMAND} ended well and wrote no {WRITTEN}"))?;
    found_in(Path::new(DEFAULT)).ok_or_else(|| format!("{DEFAULT}/{FILE} was not written"))
}

/// The folder's whole path, if the library is in it.
fn found_in(folder: &Path) -> Option<PathBuf> {
    let library = folder.join(FILE).canonicalize().ok()?;
    library.parent().map(Path::to_path_buf)
}

fn write_library() -> Result<(), String> {
    let run = Command::new("rt").arg("lib").current_dir(CRATE).output();
    match run {
        Ok(output) if output.status.success() => Ok(()),
        Ok(output) => Err(format!(
            "{COMMAND} failed: {}",
            last_line(&output.stderr).unwrap_or_else(|| output.status.to_string())
        )),
        Err(_) => Err(format!(
            "{FILE} is missing: set {VARIABLE} to its folder, or run 'make port' in the repository"
        )),
    }
}

/// Where `make port` puts it too.
fn put_library() -> std::io::Result<()> {
    fs::create_dir_all(DEFAULT)?;
    fs::copy(
        Path::new(CRATE).join(WRITTEN),
        Path::new(DEFAULT).join(FILE),
    )?;
    Ok(())
}

fn last_line(text: &[u8]) -> Option<String> {
    let text = String::from_utf8_lossy(text);
    let line = text.lines().rev().find(|line| !line.trim().is_empty())?;
    Some(line.trim().to_string())
}
