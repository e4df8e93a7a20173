//! Links the archive that `tools/staticlib.sh capi` writes.
use std::path::Path;

fn main() {
    let root = Path::new(env!("CARGO_MANIFEST_DIR")).join("../target/staticlib");
    println!("cargo:rustc-link-search=native={}", root.display());
    println!("cargo:rustc-link-lib=static=capi");
    println!(
        "cargo:rerun-if-changed={}",
        root.join("libcapi.a").display()
    );
}
