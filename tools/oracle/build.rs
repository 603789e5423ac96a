//! Lays out the module tree around the library's source files.
//!
//! The files are named where they lie, below RAW_FILES_SRC (by default
//! `../shared/docs/src` seen from the repository's root). Only nikon.rs is
//! copied: its functions are private, so one line is put at the copy's end,
//! which declares `inside_nikon.rs` as a child module.

use std::path::{Path, PathBuf};
use std::{env, fs, process};

const NIKON: &str = "formats/makernote/nikon.rs";

fn main() {
    let own = PathBuf::from(env::var("CARGO_MANIFEST_DIR").unwrap());
    let out = PathBuf::from(env::var("OUT_DIR").unwrap());
    let named = env::var_os("RAW_FILES_SRC").filter(|path| !path.is_empty());
    let source =
        named.map_or_else(|| own.join("../../../shared/docs/src"), PathBuf::from).join("src");
    let Ok(source) = source.canonicalize() else {
        eprintln!(
            "no source files in {}: set RAW_FILES_SRC to the full path of the folder that holds src/",
            source.display()
        );
        process::exit(1);
    };

    let nikon = fs::read_to_string(source.join(NIKON)).expect("nikon.rs can be read");
    let access = own.join("src/inside_nikon.rs");
    let line = format!("#[path = {access:?}] pub(crate) mod inside_nikon;\n");
    fs::write(out.join("nikon.rs"), nikon + &line).unwrap();

    let tree = fs::read_to_string(own.join("tree.rs.in")).unwrap();
    let tree = tree
        .replace("<source>", text(&source))
        .replace("<standins>", text(&own.join("standins")))
        .replace("<out>", text(&out));
    fs::write(out.join("tree.rs"), tree).unwrap();

    println!("cargo:rerun-if-env-changed=RAW_FILES_SRC");
    println!("cargo:rerun-if-changed=build.rs");
    println!("cargo:rerun-if-changed=tree.rs.in");
    println!("cargo:rerun-if-changed={}", source.join(NIKON).display());
}

fn text(path: &Path) -> &str {
    path.to_str().expect("a path of plain text")
}
