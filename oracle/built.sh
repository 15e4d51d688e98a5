# Sourced by compare, every and bench, in this folder: builds the program $name, and each of its $archives that is not there.
# INK_SRC is the folder of the Rust (it has runtime/src), and INK_LIB_DIR that of the archives, both absolute or from this folder.
source=${INK_SRC:-../../shared/docs/src}
[ -r "$source/runtime/src/native_function_call.rs" ] || {
    echo "$name: the Rust is not in $source; set INK_SRC to the folder that has runtime/src" >&2
    exit 2
}
for archive in ${archives:-ink_operators}; do
    [ ! -r "${INK_LIB_DIR:-../crates/$archive/out}/lib$archive.a" ] || continue
    [ -z "${INK_LIB_DIR-}" ] || { echo "$name: no lib$archive.a in $INK_LIB_DIR" >&2; exit 2; }
    (cd "../crates/$archive" && rt lib) >&2 || exit 2
done
cargo build --release --offline --quiet --bin "$name" >&2 || exit 2
program=${CARGO_TARGET_DIR:-target}/release/$name
