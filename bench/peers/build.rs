//! Links our static library. The linker sends each allocation to a counter.

use std::env::var;

fn main() {
    for name in ["WINNOW_BENCH_FOLDER", "RATTLE_C_FOLDER"] {
        println!("cargo:rerun-if-env-changed={name}");
    }
    let folder = |name| var(name).expect("bench/formats sets the folders of the static libraries");
    link(&folder("WINNOW_BENCH_FOLDER"), "winnow_bench_formats");
    link(&folder("RATTLE_C_FOLDER"), "libc_c");
    for name in ["malloc", "calloc", "realloc", "posix_memalign", "free"] {
        println!("cargo:rustc-link-arg-bins=-Wl,--wrap={name}");
    }
}

fn link(folder: &str, library: &str) {
    println!("cargo:rustc-link-search=native={folder}");
    println!("cargo:rustc-link-lib=static={library}");
    println!("cargo:rerun-if-changed={folder}/lib{library}.a");
}
