// Compiles the library: c/timers.c of a packed crate, or that of the repository.
// SPDX-License-Identifier: MIT OR Apache-2.0
use std::env;
use std::path::PathBuf;

/// A file of the C: in c/, where a packed crate has it, or else where the repository does.
fn source(name: &str, in_repository: &str) -> PathBuf {
    let folder = PathBuf::from(env::var("CARGO_MANIFEST_DIR").unwrap());
    let packed = folder.join("c").join(name);
    let path = if packed.exists() { packed } else { folder.join("../..").join(in_repository).join(name) };
    if !path.exists() {
        println!("cargo::error={} is not there: bindings/rust/crate makes the folder to pack", path.display());
        std::process::exit(1);
    }
    println!("cargo::rerun-if-changed={}", path.display());
    path
}

fn main() {
    let code = source("timers.c", "generated");
    let (header, _) = (source("timers.h", "include"), source("timers_desk.h", "include"));
    let include = header.parent().unwrap();
    let mut build = cc::Build::new();
    build.file(code).include(include).opt_level(2).debug(true).warnings(false);
    if env::var_os("CARGO_FEATURE_STD").is_none() {
        build.define("TIMERS_NO_DESK", None); // src/memory.rs has the functions
        build
            .define("malloc", "timers_rust_allocate")
            .define("realloc", "timers_rust_resize")
            .define("free", "timers_rust_release");
    }
    build.compile("timers");
    // Build scripts of crates that depend on this one get it as DEP_TIMERS_INCLUDE.
    println!("cargo::metadata=include={}", include.display());
}
