//! Links the static library that `host/library` writes. `RANK_LIB_DIR` names another folder that has it, by an absolute path.
use std::env;
use std::path::PathBuf;

fn main() {
    println!("cargo::rerun-if-env-changed=RANK_LIB_DIR");
    let here = PathBuf::from(env::var_os("CARGO_MANIFEST_DIR").expect("cargo sets CARGO_MANIFEST_DIR"));
    let folder = env::var_os("RANK_LIB_DIR").map_or_else(|| here.join("../../../target/staticlib"), PathBuf::from);
    let library = folder.join("librank.a");
    assert!(library.exists(), "{} is not there: run `host/library`, or set RANK_LIB_DIR to its folder", library.display());
    println!("cargo::rerun-if-changed={}", library.display());
    println!("cargo::rustc-link-search=native={}", folder.display());
    println!("cargo::rustc-link-lib=static=rank");
}
