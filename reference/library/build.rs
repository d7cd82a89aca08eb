//! Links the static library that `tools/build_programs.sh` puts into the repository's target/staticlib, and no other: it is
//! copied under a name made of its bytes, which no folder has that the environment may add to the search, and which is
//! another one when the library changes.

use std::collections::hash_map::DefaultHasher;
use std::hash::{Hash, Hasher};
use std::path::PathBuf;
use std::{env, fs};

fn main() {
    let folder = |name: &str| PathBuf::from(env::var_os(name).expect("cargo names a folder"));
    let library = folder("CARGO_MANIFEST_DIR").join("../../target/staticlib/libcse.a");
    println!("cargo:rerun-if-changed={}", library.display());
    let bytes = fs::read(&library).expect("`tools/build_programs.sh` has built the library");
    let mut hasher = DefaultHasher::new();
    bytes.hash(&mut hasher);
    let name = format!("cse_{:016x}", hasher.finish());
    let copies = folder("OUT_DIR");
    fs::write(copies.join(format!("lib{name}.a")), bytes).expect("the copy can be written");
    println!("cargo:rustc-link-search=native={}", copies.display());
    println!("cargo:rustc-link-lib=static={name}");
}
