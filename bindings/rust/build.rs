//! Links the static library: of the folder that `BULLMYRTLE_LIB_DIR` names, of the crate's own `release/`, which a packed
//! crate has, or of the repository's.
use std::path::PathBuf;
use std::{env, process};

const VARIABLE: &str = "BULLMYRTLE_LIB_DIR";
const LIBRARY: &str = "libbullmyrtle.a";
const HEADER: &str = "bullmyrtle.h";

fn main() {
    println!("cargo:rerun-if-env-changed={VARIABLE}");
    let folder = env::var_os(VARIABLE).map_or_else(released, PathBuf::from);
    let library = folder.join(LIBRARY);
    if !library.is_file() {
        eprintln!("{} isn't there; set {VARIABLE} to the folder of {LIBRARY}", library.display());
        process::exit(1);
    }
    println!("cargo:rerun-if-changed={}", library.display());
    println!("cargo:rustc-link-search=native={}", folder.display());
    println!("cargo:rustc-link-lib=static=bullmyrtle");
    println!("cargo:rustc-env=BULLMYRTLE_HEADER={}", folder.join(HEADER).display());
    println!("cargo:rustc-check-cfg=cfg(feature, values(\"serde\", \"lsp\", \"tokio\"))");
}

/// (the crate with features is a folder deeper)
fn released() -> PathBuf {
    let here = PathBuf::from(env::var_os("CARGO_MANIFEST_DIR").expect("cargo sets it"));
    let folders: Vec<PathBuf> = here.ancestors().take(4).map(|it| it.join("release")).collect();
    let found = folders.iter().find(|it| it.join(LIBRARY).is_file());
    found.unwrap_or(&folders[2]).clone()
}
