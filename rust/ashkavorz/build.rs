// Links libtablet.a, which `tools/archive` writes. ASHKAVORZ_LIB names the folder that holds it; without it the
// archive is looked for where the repository's own build leaves it.
use std::{env, path::PathBuf};

fn main() {
    let here = PathBuf::from(env::var("CARGO_MANIFEST_DIR").unwrap());
    let dir = env::var("ASHKAVORZ_LIB").map(PathBuf::from).unwrap_or_else(|_| here.join("../../target/staticlib"));
    println!("cargo:rerun-if-env-changed=ASHKAVORZ_LIB");
    println!("cargo:rerun-if-changed={}", dir.join("libtablet.a").display());
    println!("cargo:rustc-link-search=native={}", dir.display());
    println!("cargo:rustc-link-lib=static=tablet");
}
