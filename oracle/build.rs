//! Links the archives of the proved code that `tools/staticlib.sh` writes.
use std::path::Path;

fn main() {
    let root = Path::new(env!("CARGO_MANIFEST_DIR")).join("../target/staticlib");
    println!("cargo:rustc-link-search=native={}", root.display());
    for name in ["probe", "capi"] {
        println!("cargo:rustc-link-lib=static={name}");
        let archive = root.join(format!("lib{name}.a"));
        println!("cargo:rerun-if-changed={}", archive.display());
    }
}
