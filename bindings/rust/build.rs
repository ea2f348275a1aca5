//! Links `libthemis.a`, which `tools/build-library` makes: in the folder that the environment
//! variable `THEMIS_LIB_DIR` names, or in `out/` of the repository.

use std::env;
use std::path::PathBuf;

fn main() {
    let folder = match env::var_os("THEMIS_LIB_DIR") {
        Some(folder) => PathBuf::from(folder),
        None => PathBuf::from(env!("CARGO_MANIFEST_DIR")).join("../../out"),
    };
    println!("cargo:rerun-if-env-changed=THEMIS_LIB_DIR");
    println!(
        "cargo:rerun-if-changed={}",
        folder.join("libthemis.a").display()
    );
    println!("cargo:rustc-link-search=native={}", folder.display());
    println!("cargo:rustc-link-lib=static=themis");
}
