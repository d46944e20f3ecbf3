//! Links the proved static library: the file that REAMERPOPPY_LIB names, or crates/capi/out/libcapi.a of the repository.

use std::env::var_os;
use std::path::PathBuf;

fn main() {
    let root = PathBuf::from(var_os("CARGO_MANIFEST_DIR").expect("set by cargo")).join("../..");
    let library = var_os("REAMERPOPPY_LIB")
        .map_or_else(|| root.join("crates/capi/out/libcapi.a"), PathBuf::from);
    println!("cargo::rerun-if-env-changed=REAMERPOPPY_LIB");
    println!("cargo::rerun-if-changed={}", library.display());
    let (Ok(file), true) = (library.canonicalize(), library.is_file()) else {
        println!(
            "cargo::error=no library {}: make it with `tools/build.sh capi`, or name it in REAMERPOPPY_LIB",
            library.display()
        );
        return;
    };
    let folder = file.parent().expect("a file stands in a folder");
    let name = file.file_name().expect("a file has a name");
    println!("cargo::rustc-link-search=native={}", folder.display());
    println!("cargo::rustc-link-lib=static:+verbatim={}", name.display());
}
