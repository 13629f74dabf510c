//! Points a generated module at the crate's own files, so that no byte of them is copied.
use std::{env, fs, path::Path};

fn main() {
    let root = Path::new(&env::var("CARGO_MANIFEST_DIR").unwrap()).join("../..");
    let told = env::var("VIRTIO_DRIVERS_SRC").unwrap_or("../shared/docs/src".into());
    let source = root.join(&told).canonicalize();
    let source = source.unwrap_or_else(|e| panic!("VIRTIO_DRIVERS_SRC {told}: {e}"));
    println!("cargo::rerun-if-env-changed=VIRTIO_DRIVERS_SRC");
    for file in ["queue.rs", "queue/owning.rs"] {
        let file = source.join(file);
        assert!(file.is_file(), "no file {}", file.display());
        println!("cargo::rerun-if-changed={}", file.display());
    }
    // The path sits on an inline module, since on queue itself it would misplace queue/owning.rs.
    let text = format!("#[path = {source:?}]\nmod source {{ pub mod queue; }}\n");
    fs::write(
        Path::new(&env::var("OUT_DIR").unwrap()).join("source.rs"),
        text,
    )
    .unwrap();
}
