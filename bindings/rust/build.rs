//! Links the proved archive: the one that XEL_ARCHIVE names, or the one that tools/host-archive has built.

use std::path::PathBuf;
use std::{env, fs, process};

/// The archive's place where XEL_ARCHIVE names none, seen from this folder.
const BUILT: &str = "../../target/host/libxelamphoun.a";

fn main() {
    println!("cargo:rerun-if-env-changed=XEL_ARCHIVE");
    let given = env::var_os("XEL_ARCHIVE").filter(|name| !name.is_empty());
    let archive = given.map_or_else(|| folder("CARGO_MANIFEST_DIR").join(BUILT), PathBuf::from);
    println!("cargo:rerun-if-changed={}", archive.display());

    // The linker goes by folder and name, so an archive of any name is copied to where it has this one.
    let out = folder("OUT_DIR");
    if let Err(error) = fs::copy(&archive, out.join("libxelamphoun.a")) {
        eprintln!(
            "no archive at {}: {error}. tools/host-archive builds it, or XEL_ARCHIVE names one",
            archive.display()
        );
        process::exit(1);
    }
    println!("cargo:rustc-link-search=native={}", out.display());
    println!("cargo:rustc-link-lib=static=xelamphoun");
}

/// A folder that cargo tells a build program.
fn folder(variable: &str) -> PathBuf {
    PathBuf::from(env::var_os(variable).unwrap_or_default())
}
