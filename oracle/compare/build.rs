//! Links libdcps_c.a, from the directory DCPS_LIB_DIR or from where
//! `make lib` writes it; without it the crate builds and says so.

use std::env;
use std::path::PathBuf;

const LIBRARY: &str = "libdcps_c.a";

fn main() {
    println!("cargo:rustc-check-cfg=cfg(dcps_library)");
    println!("cargo:rerun-if-env-changed=DCPS_LIB_DIR");
    println!("cargo:rerun-if-changed=build.rs");
    let here = PathBuf::from(env::var_os("CARGO_MANIFEST_DIR").unwrap_or_default());
    let built = here.join("../../target/staticlib");
    let directory = env::var_os("DCPS_LIB_DIR").map_or(built, PathBuf::from);
    println!("cargo:rustc-env=LIBRARY_DIRECTORY={}", directory.display());
    let library = directory.join(LIBRARY);
    println!("cargo:rerun-if-changed={}", library.display());
    if library.is_file() {
        println!("cargo:rustc-cfg=dcps_library");
        println!("cargo:rustc-link-search=native={}", directory.display());
        println!("cargo:rustc-link-lib=static=dcps_c");
    } else {
        println!("cargo:warning=no {LIBRARY} (DCPS_LIB_DIR): nothing will be compared");
    }
}
