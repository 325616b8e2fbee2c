// Links the proved archive, and brings the original Rust in, unchanged, from where it lies.
use std::path::{Path, PathBuf};
use std::{env, fs};

fn main() {
    let here = PathBuf::from(env::var("CARGO_MANIFEST_DIR").unwrap());
    let archive = here.join("../target/staticlib");
    println!("cargo:rustc-link-search=native={}", archive.display());
    println!("cargo:rustc-link-lib=static=calls");
    println!("cargo:rerun-if-changed={}", archive.join("libcalls.a").display());

    println!("cargo:rerun-if-env-changed=ROZIMAHA_SOURCE");
    println!("cargo:rustc-check-cfg=cfg(original)");
    let source = env::var("ROZIMAHA_SOURCE").map(PathBuf::from).unwrap_or_else(|_| here.join("../docs/src"));
    let modules = source.join("src/codec/mod.rs");
    let found = modules.exists();
    if found {
        println!("cargo:rustc-cfg=original");
        println!("cargo:rerun-if-changed={}", modules.display());
        println!("cargo:rustc-env=ROZIMAHA_G722={}", source.join("src/codec/g722.rs").canonicalize().unwrap().display());
    }
    fs::write(Path::new(&env::var("OUT_DIR").unwrap()).join("original.rs"), include_of(&modules, found)).unwrap();
}

fn include_of(modules: &Path, found: bool) -> String {
    if found {
        format!("#[path = {:?}]\npub mod codec;\n", modules.canonicalize().unwrap())
    } else {
        String::new()
    }
}
