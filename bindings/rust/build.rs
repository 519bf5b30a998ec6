//! Finds the archive of the proved library, building it if it is missing.

use std::env;
use std::path::{Path, PathBuf};
use std::process::Command;

const ARCHIVE: &str = "libplanbook_c.a";

fn main() {
    println!("cargo:rerun-if-env-changed=PLANBOOK_LIB_DIR");
    if env::var_os("CARGO_FEATURE_LINKED").is_none() {
        return;
    }
    let folder = match env::var_os("PLANBOOK_LIB_DIR") {
        Some(given) => PathBuf::from(given),
        None => in_repository(),
    };
    let archive = folder.join(ARCHIVE);
    assert!(
        archive.is_file(),
        "{} is missing: build it with tools/archive.sh at the repository's top, or set PLANBOOK_LIB_DIR to \
         its folder, or leave the library out with --no-default-features",
        archive.display()
    );
    println!("cargo:rerun-if-changed={}", archive.display());
    println!("cargo:rustc-link-search=native={}", folder.display());
    println!("cargo:rustc-link-lib=static=planbook_c");
}

/// The folder of the archive in this repository; the archive is built if it is not there.
fn in_repository() -> PathBuf {
    let package = PathBuf::from(env::var_os("CARGO_MANIFEST_DIR").expect("cargo names the package's folder"));
    let top = package.join("../..");
    let folder = top.join("target/staticlib");
    if !folder.join(ARCHIVE).is_file() {
        build_archive(&top);
    }
    folder
}

fn build_archive(top: &Path) {
    let done = Command::new(top.join("tools/archive.sh")).status();
    match done {
        Ok(status) if status.success() => {}
        Ok(status) => panic!("tools/archive.sh ended with {status}"),
        Err(error) => panic!("tools/archive.sh could not be run: {error}"),
    }
}
