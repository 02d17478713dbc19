//! Links the proved library for this machine, which `tools/native` builds, or the one in the folder that MEASURE_NATIVE names:
//! tools/profile has one in which nothing is inlined, so that a profiler can tell the functions apart.
use std::path::{Path, PathBuf};

fn main() {
    let usual = Path::new(env!("CARGO_MANIFEST_DIR")).join("../target/native");
    let native = std::env::var_os("MEASURE_NATIVE").map_or(usual, PathBuf::from);
    println!("cargo:rerun-if-env-changed=MEASURE_NATIVE");
    println!("cargo:rustc-link-search=native={}", native.display());
    println!("cargo:rustc-link-lib=static=huepaxochi");
    println!(
        "cargo:rerun-if-changed={}",
        native.join("libhuepaxochi.a").display()
    );
}
