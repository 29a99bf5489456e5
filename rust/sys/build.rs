//! Finds libbwtree.a: in the folder that BWTREE_LIB names; else in this crate, where a packaged one has it; else where the repository's `./bwtree build`
//! puts it.
use std::path::Path;

fn main() {
    println!("cargo:rerun-if-env-changed=BWTREE_LIB");
    let here = std::env::var("CARGO_MANIFEST_DIR").expect("cargo sets it");
    let (packaged, built) = (format!("{here}/lib"), format!("{here}/../../c/out"));
    let or_built = if Path::new(&packaged).is_dir() { packaged } else { built };
    let folder = std::env::var("BWTREE_LIB").unwrap_or(or_built);
    let archive = format!("{folder}/libbwtree.a");
    println!("cargo:rerun-if-changed={archive}");
    if !Path::new(&archive).is_file() {
        panic!("there is no {archive}: run ./bwtree build, or set BWTREE_LIB to the folder of libbwtree.a");
    }
    println!("cargo:rustc-link-search=native={folder}");
    println!("cargo:rustc-link-lib=static=bwtree");
}
