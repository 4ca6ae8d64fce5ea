//! Links the proved static library, which `rt lib` in `crates/fensullay` writes; `FENSULLAY_LIB`
//! names another folder that holds it.

use std::env;
use std::path::PathBuf;

fn main() {
    println!("cargo::rerun-if-env-changed=FENSULLAY_LIB");
    let folder = match env::var_os("FENSULLAY_LIB") {
        Some(folder) => PathBuf::from(folder),
        None => PathBuf::from(env!("CARGO_MANIFEST_DIR")).join("../crates/fensullay/out"),
    };
    let library = folder.join("libfensullay.a");
    println!("cargo::rerun-if-changed={}", library.display());
    if !library.exists() {
        let missing = library.display();
        println!("cargo::error={missing} is missing: run `rt lib` in crates/fensullay first");
        return;
    }
    println!("cargo::rustc-link-search=native={}", folder.display());
    println!("cargo::rustc-link-lib=static=fensullay");
}
