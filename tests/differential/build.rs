//! The proved engine's archive, libespi.a, is machine code. One for this machine is linked into the program. With the feature
//! `bridged` bridge.c is linked with one for another machine instead, for an emulator to run, and the program talks to that
//! through pipes. Neither touches the library, whose tests need no archive, nor the program `captures`.
use std::env;
use std::path::{Path, PathBuf};
use std::process::Command;

fn variable(name: &str) -> Option<String> {
    println!("cargo:rerun-if-env-changed={name}");
    env::var(name).ok()
}

fn main() {
    let here = PathBuf::from(env::var("CARGO_MANIFEST_DIR").expect("cargo sets it"));
    let folder = variable("ESPI_ARCHIVE_DIR").unwrap_or_else(|| "../../target/staticlib".to_string());
    let archive = here.join(Path::new(&folder)).join("libespi.a");
    println!("cargo:rerun-if-changed={}", archive.display());
    if env::var("CARGO_FEATURE_BRIDGED").is_err() {
        println!("cargo:rustc-link-arg-bin=differential={}", archive.display());
        return;
    }

    let compiler = variable("ESPI_CC").expect("ESPI_CC names the compiler for the archive's machine");
    let runner = variable("ESPI_RUNNER").expect("ESPI_RUNNER names its emulator");
    let bridge = PathBuf::from(env::var("OUT_DIR").expect("cargo sets it")).join("bridge");
    println!("cargo:rerun-if-changed=bridge.c");
    println!("cargo:rerun-if-changed=../../include/espi.h");
    println!("cargo:rustc-env=ESPI_RUNNER={runner}");
    println!("cargo:rustc-env=ESPI_BRIDGE={}", bridge.display());
    let flags = ["-std=c11", "-O2", "-Wall", "-Wextra", "-Werror", "-static", "-I../../include", "-o"];
    let built = Command::new(&compiler).current_dir(&here).args(flags).arg(&bridge).arg("bridge.c").arg(&archive).status();
    assert!(built.is_ok_and(|status| status.success()), "{compiler} does not build the bridge");
}
