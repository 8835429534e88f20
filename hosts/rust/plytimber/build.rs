//! Links libplytimber.a, which `tools/built plytimber` writes to the repository's target/staticlib. PLYTIMBER_LIB names another folder.
use std::path::PathBuf;

fn main() {
    let here = PathBuf::from(std::env::var_os("CARGO_MANIFEST_DIR").expect("cargo names the folder of the manifest"));
    let folder = std::env::var_os("PLYTIMBER_LIB").map_or_else(|| here.join("../../../target/staticlib"), PathBuf::from);
    let library = folder.join("libplytimber.a");
    println!("cargo:rerun-if-env-changed=PLYTIMBER_LIB");
    println!("cargo:rerun-if-changed={}", library.display());
    if !library.exists() {
        println!("cargo:warning={} is not there: run `tools/built plytimber` first", library.display());
    }
    println!("cargo:rustc-link-search=native={}", folder.display());
    println!("cargo:rustc-link-lib=static=plytimber");
}
