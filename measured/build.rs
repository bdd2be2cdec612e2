//! Links the proved library, which `tests/built libcapi.a` leaves under target/.

use std::path::Path;

fn main() {
    let folder = Path::new(env!("CARGO_MANIFEST_DIR")).join("../target/staticlib");
    let library = folder.join("libcapi.a");
    if !library.exists() {
        panic!("there is no {}: run `tests/built libcapi.a` first", library.display());
    }
    println!("cargo:rerun-if-changed={}", library.display());
    println!("cargo:rustc-link-search=native={}", folder.display());
    println!("cargo:rustc-link-lib=static=capi");
}
