//! Links libaqs.a, which `make -C bindings/c` builds. AQS_LIB names another folder.

use std::{env, path::PathBuf};

fn main() {
    let here = PathBuf::from(env::var_os("CARGO_MANIFEST_DIR").expect("cargo sets it"));
    let folder = env::var_os("AQS_LIB").map_or_else(|| here.join("../../c/out"), PathBuf::from);
    println!("cargo:rustc-link-search=native={}", folder.display());
    println!("cargo:rustc-link-lib=static=aqs");
    println!("cargo:rerun-if-changed={}", folder.join("libaqs.a").display());
    println!("cargo:rerun-if-env-changed=AQS_LIB");
}
