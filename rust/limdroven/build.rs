//! Finds the archives that `tools/archives` writes: in the folder `LIMDROVEN_LIB`, absolute or from the folder above this
//! crate, or else in `target/staticlib` of the repository. Each archive defines its own calls and nothing else, so both can
//! be linked.

use std::env;
use std::path::PathBuf;

fn main() {
    let above = PathBuf::from(env::var("CARGO_MANIFEST_DIR").expect("set by cargo")).join("..");
    let folder = above.join(env::var("LIMDROVEN_LIB").unwrap_or("../target/staticlib".into()));
    println!("cargo:rerun-if-env-changed=LIMDROVEN_LIB");
    println!("cargo:rustc-link-search=native={}", folder.display());
    for name in ["exports", "strip_export"] {
        let archive = folder.join(format!("lib{name}.a"));
        assert!(archive.exists(), "{}: not there; `tools/archives` writes it", archive.display());
        println!("cargo:rerun-if-changed={}", archive.display());
        println!("cargo:rustc-link-lib=static={name}");
    }
}
