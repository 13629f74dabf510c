//! Links the archive that `tools/staticlib` writes.
use std::{env, path::Path};

fn main() {
    let root = Path::new(&env::var("CARGO_MANIFEST_DIR").unwrap()).join("../..");
    let folder = root.join("target/staticlib");
    println!(
        "cargo::rerun-if-changed={}",
        folder.join("libexports.a").display()
    );
    println!("cargo::rustc-link-search=native={}", folder.display());
    println!("cargo::rustc-link-lib=static=exports");
}
