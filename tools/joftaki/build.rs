//! Links libjoftaki_c.a, from the folder that JOFTAKI_LIB names or from crates/joftaki_c/out.

use std::path::PathBuf;
use std::{env, fs};

fn main() {
    let manifest = env::var("CARGO_MANIFEST_DIR").expect("cargo names the crate's folder");
    let folder = env::var("JOFTAKI_LIB").map(PathBuf::from);
    let folder = folder.unwrap_or_else(|_| PathBuf::from(manifest).join("../../crates/joftaki_c/out"));
    let archive = folder.join("libjoftaki_c.a");
    if fs::metadata(&archive).is_err() {
        panic!(
            "{} is missing: rt lib in crates/joftaki_c writes it",
            archive.display()
        );
    }
    println!("cargo:rustc-link-search=native={}", folder.display());
    println!("cargo:rerun-if-env-changed=JOFTAKI_LIB");
    println!("cargo:rerun-if-changed={}", archive.display());
}
