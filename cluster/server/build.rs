//! Takes memory from mimalloc, where Debian's libmimalloc2.0 is installed, and `PLAIN_MEMORY` is not set: nodes take
//! and give back many small pieces.

use std::path::Path;

const FOLDER: &str = "/usr/lib/x86_64-linux-gnu";
const MIMALLOC: &str = "libmimalloc.so.2";

fn main() {
    let there = Path::new(FOLDER).join(MIMALLOC);
    println!("cargo:rerun-if-changed={}", there.display());
    println!("cargo:rerun-if-env-changed=PLAIN_MEMORY");
    if there.exists() && std::env::var_os("PLAIN_MEMORY").is_none() {
        println!("cargo:rustc-link-search=native={FOLDER}");
        println!("cargo:rustc-link-lib=dylib:+verbatim={MIMALLOC}");
    }
}
