//! Links the proved library, which `make library` builds.

use std::env;
use std::path::Path;
use std::process;

fn main() {
    let host = env::var("CARGO_MANIFEST_DIR").expect("cargo names the package's folder");
    let folder = Path::new(&host).join("../target/staticlib");
    let library = folder.join("libcapi.a");
    println!("cargo:rerun-if-changed={}", library.display());
    if !library.exists() {
        println!(
            "cargo:rerun-if-changed={}",
            Path::new(&host).join("build.rs").display()
        );
        eprintln!("the proved library is missing: run `make library` in the repository's root");
        process::exit(1);
    }
    println!("cargo:rustc-link-search=native={}", folder.display());
    println!("cargo:rustc-link-lib=static=capi");
}
