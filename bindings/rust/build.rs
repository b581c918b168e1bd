//! Links the library: TREE_EDITOR_LIB is the path of its archive; without it, the one that `tools/library.sh` builds is taken.
use std::path::PathBuf;

fn main() {
    println!("cargo:rerun-if-env-changed=TREE_EDITOR_LIB");
    let built = PathBuf::from(std::env::var("CARGO_MANIFEST_DIR").unwrap()).join("../../crates/adapter/out/libadapter.a");
    let archive = std::env::var("TREE_EDITOR_LIB").map_or(built, PathBuf::from);
    println!("cargo:rerun-if-changed={}", archive.display());
    let archive = archive.canonicalize().unwrap_or_else(|e| panic!("{}: {e}; run tools/library.sh", archive.display()));
    let name = archive.file_stem().unwrap().to_str().unwrap().strip_prefix("lib").expect("an archive is named lib*.a");
    println!("cargo:rustc-link-search=native={}", archive.parent().unwrap().display());
    println!("cargo:rustc-link-lib=static={name}");
}
