// Finds libink_operators.a, which `rt lib` makes in crates/ink_operators: in INK_LIB_DIR, or in that crate's out/.
use std::path::PathBuf;

fn main() {
    println!("cargo:rerun-if-env-changed=INK_LIB_DIR");
    let dir = match std::env::var_os("INK_LIB_DIR") {
        // a build script runs in the crate's folder: a path is taken from where cargo was started
        Some(dir) => std::env::var_os("PWD").map(PathBuf::from).unwrap_or_default().join(dir),
        None => PathBuf::from(env!("CARGO_MANIFEST_DIR")).join("../../crates/ink_operators/out"),
    };
    let archive = dir.join("libink_operators.a");
    if !archive.is_file() {
        panic!("{} is not there: run `rt lib` in crates/ink_operators, or set INK_LIB_DIR", archive.display());
    }
    println!("cargo:rerun-if-changed={}", archive.display());
    println!("cargo:rustc-link-search=native={}", dir.display());
    println!("cargo:rustc-link-lib=static=ink_operators");
}
