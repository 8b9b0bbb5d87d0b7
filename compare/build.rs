//! Links libplungerowl.a from the folder that PLUNGEROWL_LIB_DIR names. The planted judges are made by planted/build.rs.
use std::path::PathBuf;

fn main() {
    println!("cargo:rerun-if-changed=build.rs");
    println!("cargo:rerun-if-env-changed=PLUNGEROWL_LIB_DIR");
    link();
}

fn link() {
    let folder = std::env::var("PLUNGEROWL_LIB_DIR")
        .expect("set PLUNGEROWL_LIB_DIR to the folder of libplungerowl.a");
    let folder = PathBuf::from(folder).canonicalize().expect("PLUNGEROWL_LIB_DIR is no folder");
    let library = folder.join("libplungerowl.a");
    assert!(library.is_file(), "{} is missing", library.display());
    println!("cargo:rerun-if-changed={}", library.display());
    println!("cargo:rustc-link-search=native={}", folder.display());
    println!("cargo:rustc-link-lib=static=plungerowl");
}
