//! Links the static library of the Rattle crate `exports`.

use std::path::Path;

fn main() {
    let folder = Path::new(env!("CARGO_MANIFEST_DIR")).join("../../target/staticlib");
    let library = folder.join("libexports.a");
    println!("cargo::rerun-if-changed={}", library.display());
    if !library.exists() {
        println!(
            "cargo::error=target/staticlib/libexports.a is missing: run `tools/library` at \
             the root of the repository, or use oracle/run"
        );
        return;
    }
    println!("cargo::rustc-link-search=native={}", folder.display());
    println!("cargo::rustc-link-lib=static=exports");
}
