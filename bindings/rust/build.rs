//! Says where `libboxantrel.a` is: in BOXANTREL_LIB_DIR, or else in the repository's `out`, where `make lib` puts it.

use std::env;
use std::path::PathBuf;

fn main() {
    println!("cargo:rerun-if-env-changed=BOXANTREL_LIB_DIR");
    let folder = match env::var_os("BOXANTREL_LIB_DIR") {
        Some(folder) => PathBuf::from(folder),
        None => PathBuf::from(env::var_os("CARGO_MANIFEST_DIR").unwrap()).join("../../out"),
    };
    println!("cargo:rerun-if-changed={}", folder.join("libboxantrel.a").display());
    println!("cargo:rustc-link-search=native={}", folder.display());
    println!("cargo:rustc-link-lib=static=boxantrel");
}
