//! The proved engine's archive, libespi.a, is machine code for this machine and is linked into the program as it is. What the
//! program says of its build is read here.
use std::env;
use std::fs;
use std::path::{Path, PathBuf};
use std::process::Command;

fn main() {
    println!("cargo:rerun-if-env-changed=ESPI_ARCHIVE_DIR");
    let here = PathBuf::from(env::var("CARGO_MANIFEST_DIR").expect("cargo sets it"));
    let folder = env::var("ESPI_ARCHIVE_DIR").unwrap_or_else(|_| "../../target/staticlib".to_string());
    let archive = here.join(folder).join("libespi.a");
    println!("cargo:rerun-if-changed={}", archive.display());
    println!("cargo:rustc-link-arg-bins={}", archive.display());
    let named = here.parent().and_then(Path::parent).and_then(|root| archive.strip_prefix(root).ok()).unwrap_or(&archive);
    let size = fs::metadata(&archive).map_or(0, |file| file.len());
    println!("cargo:rustc-env=COMPARE_ARCHIVE={}, {size} bytes", named.display());

    let rustc = env::var("RUSTC").expect("cargo sets it");
    let version = Command::new(rustc).arg("--version").output().expect("rustc runs").stdout;
    println!("cargo:rustc-env=COMPARE_RUSTC={}", String::from_utf8_lossy(&version).trim());
    let level = env::var("OPT_LEVEL").expect("cargo sets it");
    let flags = env::var("CARGO_ENCODED_RUSTFLAGS").unwrap_or_default();
    let more: String = flags.split('\u{1f}').filter(|flag| !flag.is_empty()).map(|flag| format!(" {flag}")).collect();
    println!("cargo:rustc-env=COMPARE_FLAGS=opt-level {level}, fat LTO, one codegen unit{more}");
}
