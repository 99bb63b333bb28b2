//! Has the programs linked with the static archive named by SEPALSAIL_LIB (the path of the .a
//! file). Without that variable, or with the feature `model-only`, nothing is linked; the cfg
//! `archive` says which of the two happened. Only the programs' last link reads the archive, so
//! that the library part can be compiled before there is one.

use std::env;
use std::path;

fn main() {
    println!("cargo::rustc-check-cfg=cfg(archive)");
    println!("cargo::rerun-if-changed=build.rs");
    println!("cargo::rerun-if-env-changed=SEPALSAIL_LIB");
    if env::var_os("CARGO_FEATURE_MODEL_ONLY").is_some() {
        return;
    }
    let Some(given) = env::var_os("SEPALSAIL_LIB") else {
        return;
    };
    let archive = path::absolute(&given).expect("SEPALSAIL_LIB is a path");
    println!("cargo::rustc-link-arg-bins={}", archive.display());
    println!("cargo::rustc-env=SEPALSAIL_ARCHIVE={}", archive.display());
    println!("cargo::rustc-cfg=archive");
}
