//! Links libdcps_c.a, from the directory DCPS_LIB_DIR or from where `make lib` writes it. Without it the
//! documentation can be built, and nothing else: src/lib.rs says so.

use std::env;
use std::path::{Path, PathBuf};

const LIBRARY: &str = "libdcps_c.a";

fn main() {
    println!("cargo:rustc-check-cfg=cfg(dcps_library)");
    println!("cargo:rerun-if-env-changed=DCPS_LIB_DIR");
    println!("cargo:rerun-if-changed=build.rs");
    let dir = env::var_os("DCPS_LIB_DIR").map_or_else(built_dir, PathBuf::from);
    let library = dir.join(LIBRARY);
    println!("cargo:rerun-if-changed={}", library.display());
    if library.is_file() {
        println!("cargo:rustc-cfg=dcps_library");
        println!("cargo:rustc-link-search=native={}", dir.display());
        println!("cargo:rustc-link-lib=static=dcps_c");
    }
}

/// Where the library stands once it is built in this repository.
fn built_dir() -> PathBuf {
    let here = env::var_os("CARGO_MANIFEST_DIR").unwrap_or_default();
    Path::new(&here).join("../../target/staticlib")
}
