//! With the feature `fresh-start`, links the two builds without proof that the script of that name leaves in the folder FRESH_START.
use std::env;

fn main() {
    println!("cargo:rerun-if-changed=build.rs");
    println!("cargo:rerun-if-env-changed=FRESH_START");
    if env::var_os("CARGO_FEATURE_FRESH_START").is_some() {
        let folder = env::var("FRESH_START").expect("FRESH_START is the folder of the two builds");
        for name in ["unproved", "fresh_start"] {
            println!("cargo:rerun-if-changed={folder}/{name}.o");
            println!("cargo:rustc-link-arg-bins={folder}/{name}.o");
        }
    }
}
