//! Links the proved engine where its archive has been made (`./archive`, at the top of the repository), and says so to the code as `cfg(proved)`.

use std::env;
use std::path::PathBuf;

fn main() {
    println!("cargo::rustc-check-cfg=cfg(proved)");
    println!("cargo::rerun-if-env-changed=WHITTERMAY_ARCHIVE");
    let here = PathBuf::from(env::var("CARGO_MANIFEST_DIR").unwrap());
    let archive = match env::var_os("WHITTERMAY_ARCHIVE") {
        Some(path) => PathBuf::from(path),
        None => here.join("../target/staticlib/libcapi.a"),
    };
    println!("cargo::rerun-if-changed={}", archive.display());
    if let Ok(whole) = archive.canonicalize() {
        println!("cargo::rustc-link-search=native={}", whole.parent().unwrap().display());
        println!("cargo::rustc-link-lib=static=capi");
        println!("cargo::rustc-cfg=proved");
    }
}
