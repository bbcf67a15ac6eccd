//! Tells the linker where the core's archive lies.

use std::env;
use std::path::PathBuf;

const ARCHIVE: &str = "libjarvulpe.a";

/// Names another folder for the archive, so that this program can be tried on a core
/// with a planted fault without touching the real one.
const OVERRIDE: &str = "JARVULPE_ARCHIVE_DIR";

fn main() {
    let folder = archive_folder();
    let archive = folder.join(ARCHIVE);
    println!("cargo:rerun-if-env-changed={OVERRIDE}");
    println!("cargo:rerun-if-changed=build.rs");
    println!("cargo:rerun-if-changed={}", archive.display());
    assert!(
        archive.is_file(),
        "{} is missing: build the core first",
        archive.display()
    );
    println!("cargo:rustc-link-search=native={}", folder.display());
    println!("cargo:rustc-link-lib=static=jarvulpe");
}

fn archive_folder() -> PathBuf {
    match env::var_os(OVERRIDE) {
        Some(folder) => PathBuf::from(folder),
        None => manifest_folder().join("../crates/jarvulpe/out"),
    }
}

fn manifest_folder() -> PathBuf {
    PathBuf::from(env::var_os("CARGO_MANIFEST_DIR").expect("set for every build script"))
}
