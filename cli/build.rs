//! Links the two static libraries that `tools/staticlib` writes.

use std::env;
use std::path::Path;

const LIBRARIES: [&str; 2] = ["embulgri", "embulgri_program"];

fn main() {
    let manifest = env::var("CARGO_MANIFEST_DIR").expect("cargo sets CARGO_MANIFEST_DIR");
    let folder = Path::new(&manifest).join("../target/staticlib");
    println!("cargo:rustc-link-search=native={}", folder.display());
    for name in LIBRARIES {
        let library = folder.join(format!("lib{name}.a"));
        println!("cargo:rerun-if-changed={}", library.display());
        assert!(
            library.is_file(),
            "{} is missing: run `tools/staticlib {name}` first",
            library.display()
        );
        println!("cargo:rustc-link-lib=static={name}");
    }
}
