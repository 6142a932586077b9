//! Links the plain C program of bench/, and the static libraries of the crates that the asked groups of calls are in, which `rt lib` writes
//! to crates/NAME/out.

use std::env;
use std::path::{Path, PathBuf};
use std::process::Command;

/// Each library, and the features that need it.
const LIBRARIES: [(&str, &[&str]); 2] = [("probe", &["QUERY", "LISTS", "TEXTS", "RECORDS"]), ("host", &["HOST"])];

/// The plain C program and its pairs, and what they include.
const SOURCES: [&str; 3] = ["plain.c", "families.c", "random.c"];
const HEADERS: [&str; 2] = ["plain.h", "families.h"];

/// Runs a tool, which must end well.
fn run(tool: &mut Command) {
    let status = tool.status().unwrap_or_else(|error| panic!("{tool:?}: {error}"));
    assert!(status.success(), "{tool:?}: {status}");
}

/// Compiles the plain C program to a static library.
fn plain(bench: &Path, out: &Path) {
    let objects = SOURCES.map(|source| out.join(source).with_extension("o"));
    for (source, object) in SOURCES.iter().zip(&objects) {
        run(Command::new("cc").args(["-O2", "-fPIC", "-std=c11", "-c"]).arg(bench.join(source)).arg("-o").arg(object));
    }
    run(Command::new("ar").arg("rcs").arg(out.join("libplain.a")).args(&objects));
    println!("cargo:rustc-link-search=native={}", out.display());
    println!("cargo:rustc-link-lib=static=plain");
    for file in SOURCES.iter().chain(&HEADERS) {
        println!("cargo:rerun-if-changed={}", bench.join(file).display());
    }
}

fn main() {
    println!("cargo:rerun-if-changed=build.rs");
    let folder = |name: &str| PathBuf::from(env::var(name).expect("cargo names its folders"));
    let root = folder("CARGO_MANIFEST_DIR").join("../..");
    plain(&root.join("bench"), &folder("OUT_DIR"));
    for (library, groups) in LIBRARIES {
        if groups.iter().all(|group| env::var_os(format!("CARGO_FEATURE_{group}")).is_none()) {
            continue;
        }
        let built = root.join(format!("crates/{library}/out"));
        println!("cargo:rustc-link-search=native={}", built.display());
        println!("cargo:rustc-link-lib=static={library}");
        println!("cargo:rerun-if-changed={}", built.join(format!("lib{library}.a")).display());
    }
}
