//! Links the static libraries of the proved crates, where `tests/rust/build-store` has built them: crates/NAME/out/libNAME.a.

use std::path::Path;

fn main() {
    let crates = Path::new(env!("CARGO_MANIFEST_DIR")).join("../../crates");
    for library in ["store_exports", "sound_exports", "frame_exports", "wire_exports", "workload_exports", "recording_exports"] {
        let folder = crates.join(library).join("out");
        let archive = folder.join(format!("lib{library}.a"));
        println!("cargo::rustc-check-cfg=cfg({library})");
        println!("cargo::rerun-if-changed={}", archive.display());
        if archive.exists() {
            println!("cargo::rustc-cfg={library}");
            println!("cargo::rustc-link-lib=static={library}");
            println!("cargo::rustc-link-search=native={}", folder.display());
        }
    }
}
