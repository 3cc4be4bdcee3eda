//! Tells the linker where the archive of the proved code lies.

use std::env;
use std::path::PathBuf;

/// The directory that the environment names, or else the one where the project's own build puts the archive.
fn directory() -> PathBuf {
    match env::var_os("RATTLE_ARCHIVES") {
        Some(named) => PathBuf::from(named),
        None => PathBuf::from(env!("CARGO_MANIFEST_DIR")).join("../../target/native"),
    }
}

/// Names the directory, and when to look again.
fn main() {
    let directory = directory();
    println!("cargo:rerun-if-env-changed=RATTLE_ARCHIVES");
    for name in ["libfrom_c.a", "libdoor.a", "libkept.a"] {
        println!("cargo:rerun-if-changed={}", directory.join(name).display());
    }
    println!("cargo:rustc-link-search=native={}", directory.display());
}
