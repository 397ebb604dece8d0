//! Links our static libraries. In `measure`, the linker sends each allocation to a counter, and puts all code where it is told to.

use std::env::var;

fn main() {
    let folder = |name| {
        println!("cargo:rerun-if-env-changed={name}");
        var(name).expect("bench/run and bench/agree set the folders of the static libraries and their names")
    };
    let (crates, libraries) = (folder("WINNOW_BENCH_CRATES"), folder("WINNOW_BENCH_LIBRARIES"));
    for library in libraries.split_whitespace() {
        link(&format!("{crates}/{library}/out"), library);
    }
    link(&folder("RATTLE_C_FOLDER"), "libc_c");
    // The copy of the crate hands out what it keeps private (README.md).
    println!("cargo:rustc-check-cfg=cfg(winnow_hooks)");
    println!("cargo:rerun-if-env-changed=WINNOW_HOOKS");
    if var("WINNOW_HOOKS").is_ok() {
        println!("cargo:rustc-cfg=winnow_hooks");
    }
    for name in ["malloc", "calloc", "realloc", "posix_memalign", "free"] {
        println!("cargo:rustc-link-arg-bin=measure=-Wl,--wrap={name}");
    }
    println!("cargo:rerun-if-env-changed=WINNOW_BENCH_PLACE");
    if let Ok(place) = var("WINNOW_BENCH_PLACE") {
        println!("cargo:rustc-link-arg-bin=measure=-Wl,-Ttext={place}");
    }
}

fn link(folder: &str, library: &str) {
    println!("cargo:rustc-link-search=native={folder}");
    println!("cargo:rustc-link-lib=static={library}");
    println!("cargo:rerun-if-changed={folder}/lib{library}.a");
}
