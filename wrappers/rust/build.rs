//! Links libcapi.a from the directory that RUMBETHOLA_LIB names, or from target/staticlib of the repository, where
//! `tests/capi/build-library` writes it. Where the file is not there, the build ends with a line that says how to make it.

use std::env::var_os;
use std::path::PathBuf;

fn main() {
    let here = PathBuf::from(var_os("CARGO_MANIFEST_DIR").expect("cargo names the package's directory"));
    // A relative path is counted from this package's directory.
    let directory = here.join(var_os("RUMBETHOLA_LIB").unwrap_or("../../target/staticlib".into()));
    let library = directory.join("libcapi.a");
    println!("cargo::rerun-if-env-changed=RUMBETHOLA_LIB");
    println!("cargo::rerun-if-changed={}", library.display());
    if !library.is_file() {
        println!(
            "cargo::error=The library {} is not there. Run `tests/capi/build-library` at the top of the repository, which \
             builds it, or set RUMBETHOLA_LIB to the directory that has it.",
            library.display()
        );
        return;
    }
    println!("cargo::rustc-link-search=native={}", directory.display());
    println!("cargo::rustc-link-lib=static=capi");
}
