//! Links the static library, which `cluster/build-library` leaves in `cluster/built`, or in the folder that
//! `SEVUNTHI_LIBRARY` names.

use std::env;
use std::path::Path;

fn main() {
    let folder = env::var("SEVUNTHI_LIBRARY").unwrap_or_else(|_| {
        let here = env::var("CARGO_MANIFEST_DIR").expect("cargo names the folder");
        format!("{here}/../built")
    });
    let library = Path::new(&folder).join("libsevunthi.a");
    println!("cargo:rustc-link-search=native={folder}");
    println!("cargo:rustc-link-lib=static=sevunthi");
    println!("cargo:rerun-if-changed={}", library.display());
    println!("cargo:rerun-if-env-changed=SEVUNTHI_LIBRARY");
}
