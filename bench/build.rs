//! Sets `have_original` if ../reference has found the original.

fn main() {
    println!("cargo::rerun-if-changed=build.rs");
    println!("cargo::rustc-check-cfg=cfg(have_original)");
    if std::env::var("DEP_ORIGINAL_FOUND").is_ok() {
        println!("cargo::rustc-cfg=have_original");
    }
}
