//! Links `libwoldbraid.a`, from the folder that `WOLDBRAID_LIB` names: the `lib` of what `tools/c_library` built.

fn main() {
    println!("cargo:rerun-if-env-changed=WOLDBRAID_LIB");
    if let Ok(folder) = std::env::var("WOLDBRAID_LIB") {
        println!("cargo:rustc-link-search=native={folder}");
    }
    println!("cargo:rustc-link-lib=static=woldbraid");
}
