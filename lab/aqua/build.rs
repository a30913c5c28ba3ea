// Names the place of the static library, relative to this manifest, and builds anew where the library changed.
use std::path::Path;

fn main() {
    let manifest = std::env::var("CARGO_MANIFEST_DIR").expect("cargo names the manifest's directory");
    let library = Path::new(&manifest).join("../../target/staticlib");
    println!("cargo:rustc-link-search=native={}", library.display());
    println!("cargo:rerun-if-changed={}", library.join("librank.a").display());
    println!("cargo:rerun-if-changed=build.rs");
}
