//! Finds the sources of ZeroDDS's trackers and makes the build-time copies:
//! each source whole and unchanged, followed by the functions of `src/append`
//! that set and get what the source keeps private.

use std::path::{Path, PathBuf};
use std::{env, fs};

/// The sources, and what is appended to each.
const SOURCES: [(&str, &str); 4] = [
    ("instance_handle", include_str!("src/append/instance_handle.rs")),
    ("instance_tracker", include_str!("src/append/instance_tracker.rs")),
    ("liveliness_tracker", include_str!("src/append/liveliness_tracker.rs")),
    ("key_hash", ""),
];

fn main() {
    println!("cargo:rerun-if-env-changed=ZERO_DDS_SRC");
    println!("cargo:rerun-if-changed=build.rs");
    println!("cargo:rerun-if-changed=src/append");
    println!("cargo:rustc-check-cfg=cfg(sources)");
    let directory = source_directory();
    println!("cargo:rustc-env=SOURCE_DIRECTORY={}", directory.display());
    let dcps = directory.join("crates/dcps/src");
    for (name, _) in SOURCES {
        println!("cargo:rerun-if-changed={}", dcps.join(format!("{name}.rs")).display());
    }
    match copies(&dcps) {
        Some(copies) => {
            write_modules(&copies);
            println!("cargo:rustc-cfg=sources");
        }
        None => println!(
            "cargo:warning=no sources of ZeroDDS in {} (ZERO_DDS_SRC): comparisons with the Rust will be skipped",
            directory.display()
        ),
    }
}

fn source_directory() -> PathBuf {
    let here = PathBuf::from(env::var_os("CARGO_MANIFEST_DIR").unwrap_or_default());
    env::var_os("ZERO_DDS_SRC").map_or_else(|| here.join("../../../shared/docs/src"), PathBuf::from)
}

/// Each source with what is appended; none where one is missing.
fn copies(dcps: &Path) -> Option<Vec<(&'static str, String)>> {
    SOURCES
        .iter()
        .map(|(name, append)| {
            let source = fs::read_to_string(dcps.join(format!("{name}.rs"))).ok()?;
            Some((*name, format!("{source}\n{append}")))
        })
        .collect()
}

/// Modules by path: a source's head of inner comments keeps it from `include!`.
fn write_modules(copies: &[(&str, String)]) {
    let out = PathBuf::from(env::var_os("OUT_DIR").unwrap_or_default());
    let mut modules = String::new();
    for (name, text) in copies {
        let path = out.join(format!("{name}.rs"));
        fs::write(&path, text).expect("the build directory can be written");
        modules += &format!(
            "#[allow(dead_code, unused_imports, clippy::all)]\n#[path = {:?}]\npub mod {name};\n",
            path.display().to_string()
        );
    }
    fs::write(out.join("modules.rs"), modules).expect("the build directory can be written");
}
