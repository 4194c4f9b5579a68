//! Links the static library `libprismfleece.a` of the folder that `PRISMFLEECE_LIB_DIR` names. Without it a stand-in is compiled.

use std::path::Path;

fn main() {
    println!("cargo:rustc-check-cfg=cfg(linked)");
    println!("cargo:rerun-if-changed=build.rs");
    println!("cargo:rerun-if-env-changed=PRISMFLEECE_LIB_DIR");
    let Ok(folder) = std::env::var("PRISMFLEECE_LIB_DIR") else {
        return;
    };
    let path = Path::new(&folder).join("libprismfleece.a");
    assert!(path.is_absolute(), "PRISMFLEECE_LIB_DIR must be an absolute path, not {folder}");
    assert!(path.is_file(), "there is no {}", path.display());
    println!("cargo:rerun-if-changed={}", path.display());
    println!("cargo:rustc-link-search=native={folder}");
    println!("cargo:rustc-link-lib=static=prismfleece");
    println!("cargo:rustc-cfg=linked");
}
