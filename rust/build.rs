//! Links the proved archive: from `$ITHWYRAL_ARCHIVE_DIR`, or from where `tools/archive` puts it.

use std::env;
use std::path::PathBuf;
use std::process::exit;

fn main() {
    println!("cargo:rerun-if-changed=build.rs");
    println!("cargo:rerun-if-env-changed=ITHWYRAL_ARCHIVE_DIR");
    let package = env::var_os("CARGO_MANIFEST_DIR")
        .map(PathBuf::from)
        .unwrap_or_default();
    let directory = match env::var_os("ITHWYRAL_ARCHIVE_DIR") {
        Some(given) => PathBuf::from(given),
        None => package.join("../target/staticlib"),
    };
    let archive = directory.join("libcabi.a");
    println!("cargo:rerun-if-changed={}", archive.display());
    if !archive.is_file() {
        eprintln!("ithwyral: there is no {}", archive.display());
        eprintln!(
            "ithwyral: `bash tools/archive` in the repository proves the core and builds it;"
        );
        eprintln!("ithwyral: where it lies elsewhere, set ITHWYRAL_ARCHIVE_DIR to its folder");
        exit(1);
    }
    if env::var("CARGO_CFG_TARGET_ARCH").as_deref() != Ok("x86_64") {
        eprintln!("ithwyral: the archive is for x86-64: build with --target x86_64-unknown-linux-gnu");
        exit(1);
    }
    println!("cargo:rustc-link-search=native={}", directory.display());
    println!("cargo:rustc-link-lib=static=cabi");
}
