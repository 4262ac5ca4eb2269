// Links the archive that `./archive` makes at the top of the repository. WHITTERMAY_LIB names another folder that holds libcapi.a.
use std::env;
use std::path::PathBuf;

fn main() {
    println!("cargo:rerun-if-env-changed=WHITTERMAY_LIB");
    let folder = match env::var_os("WHITTERMAY_LIB") {
        Some(folder) => PathBuf::from(folder),
        None => PathBuf::from(env::var_os("CARGO_MANIFEST_DIR").unwrap()).join("../../target/staticlib"),
    };
    let archive = folder.join("libcapi.a");
    if !archive.exists() {
        panic!("there is no {}: run `./archive` at the top of the repository first", archive.display());
    }
    println!("cargo:rerun-if-changed={}", archive.display());
    println!("cargo:rustc-link-search=native={}", folder.display());
    println!("cargo:rustc-link-lib=static=capi");
}
