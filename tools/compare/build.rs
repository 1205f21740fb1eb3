//! Links the station's static library when the feature `station` is on.

use std::env;

/// The library's name: `libboundary.a` in the folder STATION_LIB_DIR.
const LIBRARY: &str = "boundary";

fn main() {
    println!("cargo:rerun-if-changed=build.rs");
    println!("cargo:rerun-if-env-changed=STATION_LIB_DIR");
    if env::var_os("CARGO_FEATURE_STATION").is_none() {
        return;
    }
    let folder = env::var("STATION_LIB_DIR")
        .expect("set STATION_LIB_DIR to the folder that holds libboundary.a");
    println!("cargo:rerun-if-changed={folder}/lib{LIBRARY}.a");
    println!("cargo:rustc-link-search=native={folder}");
    println!("cargo:rustc-link-lib=static={LIBRARY}");
    println!("cargo:rustc-link-lib=static=rattle_c");
    println!("cargo:rustc-link-lib=m");
    println!("cargo:rustc-link-lib=c");
}
