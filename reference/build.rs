//! Finds the original's files. They are compiled where they stand, unchanged.

use std::env;
use std::path::{Path, PathBuf};

const VARIABLE: &str = "LIDRUMAK_ORIGINAL";
const DEFAULT: &str = "../../shared/docs/src";
const USB: &str = "crates/kernel/src/device/usb";
const FILES: [&str; 8] = [
    "types.rs",
    "usbd/request.rs",
    "usbd/pipe.rs",
    "usbd/descriptors.rs",
    "usbd/device.rs",
    "usbd/usbd.rs",
    "hcd/hub.rs",
    "device/hub.rs",
];

fn main() {
    let folder = env::var(VARIABLE).unwrap_or_else(|_| DEFAULT.to_string());
    let usb: PathBuf = Path::new(&folder).join(USB);

    println!("cargo::rerun-if-changed=build.rs");
    println!("cargo::rerun-if-env-changed={VARIABLE}");
    for file in FILES {
        println!("cargo::rerun-if-changed={}", usb.join(file).display());
    }

    println!("cargo::rustc-check-cfg=cfg(have_original)");
    println!("cargo::rustc-env=REFERENCE_LOOKED_IN={}", usb.display());
    if FILES.iter().all(|file| usb.join(file).is_file()) {
        let usb = usb.canonicalize().expect("the folder that was just read");
        println!("cargo::rustc-env=REFERENCE_USB={}", usb.display());
        println!("cargo::rustc-cfg=have_original");
        println!("cargo::metadata=found=1");
    }
}
