//! Links the engine's static library into the program compare. The library of this package, its tests and the program timing do
//! without it.

use std::env;

fn main() {
    let root = env::var("CARGO_MANIFEST_DIR").expect("cargo gives the folder of the package");
    let engine = format!("{root}/../crates/engine/out/libengine.a");
    println!("cargo:rerun-if-changed={engine}");
    println!("cargo:rustc-link-arg-bin=compare={engine}");
}
