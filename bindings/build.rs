//! Links the static library that `rt lib` in crates/bench writes, from `crates/bench/out` of the repository, or from
//! the folder that the variable BENCH_STATICLIB names.

use std::path::{Path, PathBuf};

fn main() {
    println!("cargo:rerun-if-env-changed=BENCH_STATICLIB");
    let folder = match std::env::var_os("BENCH_STATICLIB") {
        Some(folder) => PathBuf::from(folder),
        None => Path::new(env!("CARGO_MANIFEST_DIR")).join("../crates/bench/out"),
    };
    let library = folder.join("libbench.a");
    println!("cargo:rerun-if-changed={}", library.display());
    if !library.is_file() {
        println!("cargo:warning={} is not there: run `rt lib` in crates/bench first", library.display());
    }
    println!("cargo:rustc-link-search=native={}", folder.display());
    println!("cargo:rustc-link-lib=static=bench");
}
