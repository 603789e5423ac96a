//! Links libfocuspoints.a, which `bindings/build` writes. FOCUSPOINTS_LIB_DIR is the folder where it lies; without it that is
//! target/staticlib of the repository.

use std::env;
use std::path::PathBuf;

fn main() {
    println!("cargo:rerun-if-env-changed=FOCUSPOINTS_LIB_DIR");
    let dir = match env::var_os("FOCUSPOINTS_LIB_DIR") {
        Some(dir) => PathBuf::from(dir),
        None => {
            PathBuf::from(env::var_os("CARGO_MANIFEST_DIR").unwrap()).join("../../target/staticlib")
        }
    };
    let library = dir.join("libfocuspoints.a");
    if !library.is_file() {
        panic!(
            "{} is not there: run bindings/build, or set FOCUSPOINTS_LIB_DIR",
            library.display()
        );
    }
    println!("cargo:rerun-if-changed={}", library.display());
    println!("cargo:rustc-link-search=native={}", dir.display());
    println!("cargo:rustc-link-lib=static=focuspoints");
}
