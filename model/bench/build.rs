//! Links the archive that `./archive` writes.
use std::path::PathBuf;

fn main() {
    let root: PathBuf = [env!("CARGO_MANIFEST_DIR"), "..", ".."].iter().collect();
    let archives = root.join("target").join("staticlib");
    println!("cargo:rustc-link-search=native={}", archives.display());
    println!("cargo:rustc-link-lib=static=rudozhev");
    println!(
        "cargo:rerun-if-changed={}",
        archives.join("librudozhev.a").display()
    );
}
