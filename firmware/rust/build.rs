//! Links libnunthila.a from the folder NUNTHILA_LIB, by default ../../target/staticlib. A relative folder counts from the crate.
use std::env;
use std::path::Path;

fn main() {
    println!("cargo:rerun-if-env-changed=NUNTHILA_LIB");
    let folder = env::var("NUNTHILA_LIB").unwrap_or_else(|_| "../../target/staticlib".to_string());
    let folder = Path::new(&env::var("CARGO_MANIFEST_DIR").expect("cargo sets it")).join(folder);
    let archive = folder.join("libnunthila.a");
    println!("cargo:rerun-if-changed={}", archive.display());
    if !archive.is_file() {
        panic!("there is no {}: run tools/build nunthila, or set NUNTHILA_LIB to its folder", archive.display());
    }
    println!("cargo:rustc-link-search=native={}", folder.display());
    println!("cargo:rustc-link-lib=static=nunthila");
}
