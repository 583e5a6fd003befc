//! Tells the linker where `bin/staticlib` writes the proved calls; only the program links them, not the library.

use std::env;
use std::path::PathBuf;

/// The folder of the static libraries, seen from this package.
const STATIC_LIBRARIES: &str = "../target/staticlib";
/// The static libraries that `src/rattle.rs` names.
const ARCHIVES: [&str; 7] = [
    "libcalls_hall.a",
    "libcalls_plan.a",
    "libdriver.a",
    "libcalls_packets.a",
    "libcalls_parts.a",
    "libcalls_sheets.a",
    "libcalls_lines.a",
];

fn main() {
    let package = env::var_os("CARGO_MANIFEST_DIR").map_or_else(PathBuf::new, PathBuf::from);
    let folder = package.join(STATIC_LIBRARIES);
    println!("cargo:rerun-if-changed=build.rs");
    println!("cargo:rustc-link-search=native={}", folder.display());
    for archive in ARCHIVES {
        println!("cargo:rerun-if-changed={}", folder.join(archive).display());
    }
}
