//! Links the archive librudozhev.a: from the directory that RUDOZHEV_ARCHIVE
//! names, or else from the repository's.

use std::env;
use std::path::{Path, PathBuf};
use std::process::exit;

/// Why the archive cannot be linked for a target; none where it can.
pub fn unfit(architecture: &str, pointer_width: &str, system: &str) -> Option<String> {
    if architecture != "x86_64" || pointer_width != "64" {
        let target = format!("{architecture} with pointers of {pointer_width} bits");
        return Some(format!("librudozhev.a is code for x86-64 alone; this target is {target}"));
    }
    if matches!(system, "windows" | "uefi" | "cygwin" | "macos" | "ios") {
        let convention = "the System V calling convention, in ELF";
        return Some(format!("librudozhev.a follows {convention}; this target is {system}"));
    }
    None
}

fn stop(reason: String) -> ! {
    eprintln!("{reason}");
    exit(1);
}

fn main() {
    let [architecture, pointer_width, system] = ["ARCH", "POINTER_WIDTH", "OS"]
        .map(|name| env::var(format!("CARGO_CFG_TARGET_{name}")).unwrap_or_default());
    if let Some(reason) = unfit(&architecture, &pointer_width, &system) {
        stop(reason);
    }
    println!("cargo:rerun-if-env-changed=RUDOZHEV_ARCHIVE");
    let directory = env::var_os("RUDOZHEV_ARCHIVE").map_or_else(
        || Path::new(env!("CARGO_MANIFEST_DIR")).join("../target/staticlib"),
        PathBuf::from,
    );
    let archive = directory.join("librudozhev.a");
    println!("cargo:rerun-if-changed={}", archive.display());
    if !archive.is_file() {
        stop(format!(
            "missing: {}\nrun `./archive` at the root of the repository, or let RUDOZHEV_ARCHIVE name \
             the directory that has librudozhev.a",
            archive.display()
        ));
    }
    println!("cargo:rustc-link-search=native={}", directory.display());
    println!("cargo:rustc-link-lib=static=rudozhev");
}
