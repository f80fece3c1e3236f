//! Finds the port's static library, and sets `have_original` if ../reference has
//! found the original.

use std::env;
use std::path::Path;

const VARIABLE: &str = "LIDRUMAK_LIBRARY";
const DEFAULT: &str = "../target/staticlib";

fn main() {
    let folder = env::var(VARIABLE).unwrap_or_else(|_| DEFAULT.to_string());
    let library = Path::new(&folder).join("liblidrumak.a");

    println!("cargo::rerun-if-changed=build.rs");
    println!("cargo::rerun-if-env-changed={VARIABLE}");
    println!("cargo::rerun-if-changed={}", library.display());

    println!("cargo::rustc-check-cfg=cfg(have_original)");
    if env::var("DEP_ORIGINAL_FOUND").is_ok() {
        println!("cargo::rustc-cfg=have_original");
    }
    match library.canonicalize() {
        Ok(library) => {
            let folder = library.parent().expect("the library's folder");
            println!("cargo::rustc-link-search=native={}", folder.display());
            println!("cargo::rustc-link-lib=static=lidrumak");
        }
        Err(_) => println!(
            "cargo::error=the port's library is missing: looked for {} (from the package's folder); \
             'make port' writes it, the variable {VARIABLE} names another folder",
            library.display()
        ),
    }
}
