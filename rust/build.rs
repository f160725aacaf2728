//! Links the proved libraries, which `tools/libraries.sh` builds: the host call, and the calls for tests and benchmarks if they are asked for.

use std::path::Path;

fn link(name: &str) {
    let folder = Path::new(env!("CARGO_MANIFEST_DIR")).join("../target/staticlib");
    let library = folder.join(format!("lib{name}.a"));
    println!("cargo::rerun-if-changed={}", library.display());
    if !library.exists() {
        println!("cargo::error=the proved library {} is missing: run `tools/libraries.sh {name}` at the root first", library.display());
        return;
    }
    println!("cargo::rustc-link-search=native={}", folder.display());
    println!("cargo::rustc-link-lib=static={name}");
}

fn main() {
    link("lpac_host");
    if std::env::var_os("CARGO_FEATURE_ROOMS").is_some() {
        link("lpac_rooms");
    }
}
