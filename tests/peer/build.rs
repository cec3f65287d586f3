//! Links the proved solver's static libraries, `libssat_c.a` and, with document 01's plain forms, `libplain_c.a`.

use std::env;
use std::path::PathBuf;
use std::process::exit;

fn main() {
    println!("cargo:rerun-if-changed=build.rs");
    println!("cargo:rerun-if-env-changed=SSAT_LIB_DIR");
    if env::var_os("CARGO_FEATURE_NO_FFI").is_some() {
        return;
    }
    for name in ["ssat_c", "plain_c"] {
        let directory = match env::var_os("SSAT_LIB_DIR") {
            Some(directory) => PathBuf::from(directory),
            None => PathBuf::from(env::var_os("CARGO_MANIFEST_DIR").unwrap()).join(format!("../../crates/{name}/out")),
        };
        let library = directory.join(format!("lib{name}.a"));
        println!("cargo:rerun-if-changed={}", library.display());
        if !library.is_file() {
            eprintln!("error: {} is missing.", library.display());
            eprintln!("Build it with `rt lib` in crates/{name}, or name its directory in SSAT_LIB_DIR.");
            eprintln!("To build the peer alone: `--features no-ffi`.");
            exit(1);
        }
        println!("cargo:rustc-link-search=native={}", directory.display());
        println!("cargo:rustc-link-lib=static={name}");
    }
}
