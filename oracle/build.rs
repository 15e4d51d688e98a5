//! Names the Rust that this compares with, byte for byte where it stands (INK_SRC), and the archive of this
//! repository's own compiled code (INK_LIB_DIR). Paths are relative to the folder of this file.
use std::{env, fs, path::PathBuf};

const FILES: [&str; 9] = [
    "ink_list",
    "ink_list_item",
    "list_definition",
    "list_definitions_origin",
    "native_function_call",
    "object",
    "value",
    "value_type",
    "void",
];

fn folder(variable: &str, usual: &str) -> PathBuf {
    println!("cargo:rerun-if-env-changed={variable}");
    let here = PathBuf::from(env::var_os("CARGO_MANIFEST_DIR").unwrap());
    here.join(env::var_os(variable).unwrap_or(usual.into()))
}

fn locate(dir: &PathBuf, name: &str) -> PathBuf {
    let path = dir.join("runtime/src").join(format!("{name}.rs"));
    println!("cargo:rerun-if-changed={}", path.display());
    path.canonicalize().unwrap_or_else(|_| {
        eprintln!("oracle: the Rust source is not there: {}; set INK_SRC to the folder that has runtime/src", path.display());
        std::process::exit(1)
    })
}

fn main() {
    let source = folder("INK_SRC", "../../shared/docs/src");
    let mut text = String::new();
    for name in FILES {
        text += &format!("#[path = {:?}]\npub mod {name};\n", locate(&source, name));
    }
    text += &format!(
        "pub mod story {{\n#[path = {:?}]\npub mod error;\npub use crate::shims::{{external_functions, variable_observer}};\n}}\n",
        locate(&source, "story/error")
    );
    fs::write(PathBuf::from(env::var_os("OUT_DIR").unwrap()).join("ink_modules.rs"), text).unwrap();

    // only these call the port
    let link = |bin: &str, name: &str| {
        let archive = folder("INK_LIB_DIR", &format!("../crates/{name}/out")).join(format!("lib{name}.a"));
        println!("cargo:rerun-if-changed={}", archive.display());
        println!("cargo:rustc-link-arg-bin={bin}={}", archive.display());
    };
    link("bench", "float_of_int");
    for bin in ["compare", "bench", "every"] {
        link(bin, "ink_operators");
        println!("cargo:rustc-link-arg-bin={bin}=-lm");
    }
}
