//! Finds the Rust that is compared: below `MMD_ANIM_SRC`, or else below `shared/docs/src` beside the checkout.

use std::env;
use std::path::PathBuf;

fn main() {
    let oracle = PathBuf::from(env::var("CARGO_MANIFEST_DIR").expect("set by cargo")).join("..");
    let named = env::var("MMD_ANIM_SRC").unwrap_or("../../shared/docs/src".into());
    let folder = oracle.join(named).join("crates/mmd-anim-format/src");
    let folder = folder
        .canonicalize()
        .unwrap_or_else(|error| panic!("{}: {error}; name the source in MMD_ANIM_SRC", folder.display()));
    println!("cargo:rerun-if-env-changed=MMD_ANIM_SRC");
    for file in ["pmm.rs", "binary.rs", "error.rs", "sjis.rs"] {
        println!("cargo:rerun-if-changed={}", folder.join(file).display());
    }
    println!("cargo:rustc-env=MMD_ANIM_FORMAT={}", folder.display());
}
