//! Compiles the expert's check, and links the check of another library where EDR_BEFORE names its object file.

use std::path::PathBuf;
use std::process::Command;

fn run(command: &mut Command) {
    let status = command.status().unwrap_or_else(|error| panic!("{command:?}: {error}"));
    assert!(status.success(), "{command:?}: {status}");
}

fn main() {
    println!("cargo:rustc-check-cfg=cfg(before)");
    println!("cargo:rerun-if-changed=expert.c");
    println!("cargo:rerun-if-env-changed=EDR_BEFORE");
    let made = PathBuf::from(std::env::var("OUT_DIR").expect("cargo sets it"));
    let (object, library) = (made.join("expert.o"), made.join("libexpert.a"));
    run(Command::new("cc")
        .args(["-std=gnu11", "-O3", "-march=x86-64-v2", "-c", "expert.c", "-o"])
        .arg(&object));
    let _ = std::fs::remove_file(&library);
    run(Command::new("ar").arg("rcs").arg(&library).arg(&object));
    println!("cargo:rustc-link-search=native={}", made.display());
    println!("cargo:rustc-link-lib=static=expert");
    if let Ok(before) = std::env::var("EDR_BEFORE") {
        println!("cargo:rerun-if-changed={before}");
        println!("cargo:rustc-link-arg={before}");
        println!("cargo:rustc-cfg=before");
    }
}
