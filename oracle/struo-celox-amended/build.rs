//! Applies the patches, in the order of their names, to a copy of the five
//! files. A patch that does not fit exactly fails the build.

use std::path::{Path, PathBuf};
use std::process::Command;

const FILES: [&str; 5] =
    ["lib.rs", "optimize/bitwise.rs", "optimize/lut.rs", "optimize/mod.rs", "optimize/mux.rs"];

fn main() {
    let here = PathBuf::from(std::env::var_os("CARGO_MANIFEST_DIR").expect("a manifest"));
    let out = PathBuf::from(std::env::var_os("OUT_DIR").expect("a place to write"));
    let published = here.join("../struo-celox/src");
    std::fs::create_dir_all(out.join("src/optimize")).expect("a directory");
    for file in FILES {
        watch(&published.join(file));
        let text = std::fs::read(published.join(file)).expect("a published file");
        std::fs::write(out.join("src").join(file), text).expect("its copy");
    }
    let folder = here.join("patches");
    watch(&folder);
    let mut patches = std::fs::read_dir(&folder)
        .expect("patches")
        .map(|entry| entry.expect("a patch").path())
        .collect::<Vec<_>>();
    patches.sort();
    for patch in patches {
        let status = Command::new("patch")
            .args(["-p1", "--fuzz=0", "--batch", "--forward", "--no-backup-if-mismatch", "-d"])
            .arg(&out)
            .arg("-i")
            .arg(&patch)
            .status()
            .expect("the program patch");
        assert!(status.success(), "{} does not fit", patch.display());
    }
    // A file of inner comments can be a module, not an `include!`.
    let root = "#[path = \"src/lib.rs\"]\nmod adapter;\npub use adapter::*;\n";
    std::fs::write(out.join("root.rs"), root).expect("the crate's root");
}

fn watch(path: &Path) {
    println!("cargo::rerun-if-changed={}", path.display());
}
