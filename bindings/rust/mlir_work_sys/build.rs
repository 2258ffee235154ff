//! Passes the folder of `libmlir_work.a` to the linker: `MLIR_WORK_LIB`, or else `dist/out` of the checkout.

use std::{env, path::PathBuf};

fn main() {
    println!("cargo:rerun-if-env-changed=MLIR_WORK_LIB");
    let folder = env::var_os("MLIR_WORK_LIB").map(PathBuf::from).unwrap_or_else(|| {
        let here = PathBuf::from(env::var_os("CARGO_MANIFEST_DIR").expect("cargo sets it"));
        here.join("../../../dist/out")
    });
    let archive = folder.join("libmlir_work.a");
    println!("cargo:rerun-if-changed={}", archive.display());
    println!("cargo:rustc-link-search=native={}", folder.display());
    println!("cargo:rustc-link-lib=static=mlir_work");
}
