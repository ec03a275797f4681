//! Links the proved static library. Its folder is DESKHERON_LIB, or target/staticlib of the repository.

use std::env;

fn main() {
    println!("cargo:rerun-if-env-changed=DESKHERON_LIB");
    let folder = env::var("DESKHERON_LIB")
        .unwrap_or_else(|_| format!("{}/../target/staticlib", env!("CARGO_MANIFEST_DIR")));
    println!("cargo:rerun-if-changed={folder}/libdeskheron.a");
    println!("cargo:rustc-link-search=native={folder}");
    println!("cargo:rustc-link-lib=static=deskheron");
}
