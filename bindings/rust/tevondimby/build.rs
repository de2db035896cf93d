//! Links the library: of the folder `TEVONDIMBY_LIB`, or of `lib` beside `bindings`.
use std::path::PathBuf;

fn main() {
    println!("cargo:rerun-if-env-changed=TEVONDIMBY_LIB");
    let folder = std::env::var_os("TEVONDIMBY_LIB").map_or_else(
        || PathBuf::from(std::env::var_os("CARGO_MANIFEST_DIR").unwrap()).join("../../../lib"),
        PathBuf::from,
    );
    assert!(
        folder.join("libtevondimby.a").is_file(),
        "{}: no libtevondimby.a; bindings/build makes it",
        folder.display()
    );
    println!("cargo:rustc-link-search=native={}", folder.display());
    println!("cargo:rustc-link-lib=static=tevondimby");
    println!("cargo:rerun-if-changed={}/libtevondimby.a", folder.display());
}
