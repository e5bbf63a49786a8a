//! Links the static library, which `interfaces/library` writes. PEZGOK_LIB names its folder where it is another.

use std::env;
use std::path::PathBuf;

fn main() {
    println!("cargo::rerun-if-env-changed=PEZGOK_LIB");
    let folder = env::var_os("PEZGOK_LIB").map_or_else(
        || PathBuf::from(env::var_os("CARGO_MANIFEST_DIR").expect("cargo names the package's folder")).join("../target/staticlib"),
        PathBuf::from,
    );
    let library = folder.join("libpezgok.a");
    println!("cargo::rerun-if-changed={}", library.display());
    if !library.exists() {
        println!("cargo::error=libpezgok.a is not there: run `interfaces/library` first");
        return;
    }
    println!("cargo::rustc-link-search=native={}", folder.display());
    println!("cargo::rustc-link-lib=static=pezgok");
}
