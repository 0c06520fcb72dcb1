//! Finds the archive: in the folder that `BUULSET_LIB_DIR` names, or where `tools/build buulset_c` puts it in this
//! repository.
use std::{env, path::PathBuf};

fn main() {
    let own = PathBuf::from(env::var_os("CARGO_MANIFEST_DIR").unwrap()).join("../../target/staticlib");
    let folder = env::var_os("BUULSET_LIB_DIR").map_or(own, PathBuf::from);
    let archive = folder.join("libbuulset.a");
    println!("cargo:rerun-if-env-changed=BUULSET_LIB_DIR");
    println!("cargo:rerun-if-changed={}", archive.display());
    assert!(
        archive.exists(),
        "{} is missing: run `tools/build buulset_c`, or name its folder in BUULSET_LIB_DIR",
        archive.display()
    );
    println!("cargo:rustc-link-search=native={}", folder.display());
    println!("cargo:rustc-link-lib=static=buulset");
}
