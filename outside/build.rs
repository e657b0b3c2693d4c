//! With the feature `archive`: links `libarchive.a` from the directory named
//! by the environment variable `ARCHIVE_DIR`, or else from `target/staticlib`
//! of the repository that holds this package.

use std::env;
use std::path::PathBuf;

fn main() {
    println!("cargo::rerun-if-changed=build.rs");
    println!("cargo::rerun-if-env-changed=ARCHIVE_DIR");
    if env::var_os("CARGO_FEATURE_ARCHIVE").is_none() {
        return;
    }
    let directory = archive_directory();
    println!("cargo::rerun-if-changed={}", directory.join("libarchive.a").display());
    println!("cargo::rustc-link-search=native={}", directory.display());
    println!("cargo::rustc-link-lib=static=archive");
}

fn archive_directory() -> PathBuf {
    match env::var_os("ARCHIVE_DIR") {
        Some(directory) => PathBuf::from(directory),
        None => {
            let package = env::var_os("CARGO_MANIFEST_DIR").expect("cargo names the package");
            PathBuf::from(package).join("..").join("target").join("staticlib")
        }
    }
}
