//! Links the product's library where the feature `library` asks for it.

use std::env;

fn main() {
    println!("cargo:rerun-if-changed=build.rs");
    println!("cargo:rerun-if-env-changed=RONDAVITSE_LIB_DIR");
    if env::var_os("CARGO_FEATURE_LIBRARY").is_none() {
        return;
    }
    let directory = env::var("RONDAVITSE_LIB_DIR")
        .expect("RONDAVITSE_LIB_DIR is the full path of the directory of libhost.a");
    println!("cargo:rerun-if-changed={directory}/libhost.a");
    println!("cargo:rustc-link-search=native={directory}");
    println!("cargo:rustc-link-lib=static=host");
}
