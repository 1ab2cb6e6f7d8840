//! Links the library under test, `libcapi.a`, from the project's target directory, where `./library` puts it.

use std::path::Path;

fn main() {
    let package = std::env::var("CARGO_MANIFEST_DIR").expect("cargo names the package's directory");
    let root = Path::new(&package).parent().expect("the package has a parent directory");
    let libraries = root.join("target").join("staticlib");
    println!("cargo:rustc-link-search=native={}", libraries.display());
    println!("cargo:rustc-link-lib=static=capi");
    println!("cargo:rerun-if-changed={}", libraries.join("libcapi.a").display());
}
