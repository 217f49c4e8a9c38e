//! Links the archive that `./archive` writes. `./compare` and `./bench` hand its hash over, so that another archive is linked anew even where
//! it is no newer.

fn main() {
    let folder = concat!(env!("CARGO_MANIFEST_DIR"), "/../target/staticlib");
    println!("cargo:rustc-link-search=native={folder}");
    println!("cargo:rustc-link-lib=static=ardhrumesh");
    println!("cargo:rerun-if-changed={folder}/libardhrumesh.a");
    println!("cargo:rerun-if-env-changed=ARDHRUMESH_ARCHIVE");
}
