// Links the proved libraries that `scripts/build` writes: the calls of layers 1 and 2, and those of layer 3.
use std::env;
use std::path::Path;

fn main() {
    let here = env::var("CARGO_MANIFEST_DIR").expect("cargo names the package's folder");
    let folder = Path::new(&here).join("../target/staticlib");
    println!("cargo:rustc-link-search=native={}", folder.display());
    for library in ["exports_bridge", "exports_network"] {
        let archive = folder.join(format!("lib{library}.a"));
        println!("cargo:rerun-if-changed={}", archive.display());
        if !archive.exists() {
            panic!("{} is missing: run `scripts/build {library}` first", archive.display());
        }
        println!("cargo:rustc-link-lib=static={library}");
    }
}
