//! Links the proved archive, named by XEL_ARCHIVE, into the program `compare` alone; `answers` asks
//! the Rust only and needs none.

fn main() {
    println!("cargo:rerun-if-env-changed=XEL_ARCHIVE");
    if let Ok(archive) = std::env::var("XEL_ARCHIVE") {
        println!("cargo:rerun-if-changed={archive}");
        println!("cargo:rustc-link-arg-bin=compare={archive}");
    }
}
