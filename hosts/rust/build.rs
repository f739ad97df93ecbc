//! Links the supervisor's library.

use std::env;

fn main() {
    println!("cargo:rerun-if-changed=build.rs");
    println!("cargo:rerun-if-env-changed=RONDAVITSE_LIB_DIR");
    let directory = env::var("RONDAVITSE_LIB_DIR")
        .expect("RONDAVITSE_LIB_DIR is the full path of the directory of libhost.a");
    println!("cargo:rerun-if-changed={directory}/libhost.a");
    println!("cargo:rustc-link-search=native={directory}");
    println!("cargo:rustc-link-lib=static=host");
}
