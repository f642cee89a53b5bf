//! Tells the linker where the kernel's archive and the C part of its standard library are.

use std::path::PathBuf;
use std::process::Command;

/// The folder of the kit's archives: beside the folder of the guide that `rt doc` names.
fn kit_archives() -> PathBuf {
    let guide = Command::new("rt")
        .arg("doc")
        .output()
        .expect("rt is on the path");
    let guide = String::from_utf8(guide.stdout).expect("a path");
    let kit = PathBuf::from(guide.trim())
        .parent()
        .expect("a kit")
        .to_path_buf();
    kit.join("c")
}

fn main() {
    println!("cargo:rerun-if-changed=build.rs");
    if std::env::var_os("CARGO_FEATURE_KERNEL").is_none() {
        return;
    }
    let here = PathBuf::from(std::env::var_os("CARGO_MANIFEST_DIR").expect("set by cargo"));
    let archives = here.join("../crates/bench_exports/out");
    println!(
        "cargo:rerun-if-changed={}",
        archives.join("libbench_exports.a").display()
    );
    println!("cargo:rustc-link-search=native={}", archives.display());
    println!(
        "cargo:rustc-link-search=native={}",
        kit_archives().display()
    );
}
