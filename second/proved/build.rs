//! Has the kit prove the crate `exports_c` and write its archive, and links it.

use std::env;
use std::fs;
use std::path::Path;
use std::process::Command;

fn main() {
    let here = env::var("CARGO_MANIFEST_DIR").expect("cargo names the package's folder");
    let root = Path::new(&here).join("../..");
    let exports = root.join("crates/exports_c");
    let made = Command::new("rt").arg("lib").current_dir(&exports).status();
    match made {
        Ok(status) if status.success() => {}
        Ok(status) => panic!("rt lib in crates/exports_c: {status}"),
        Err(error) => panic!("the Rattle kit's rt cannot be started: {error}"),
    }
    // A copy of cargo's own, under the name that its users link: `rt ci` empties
    // the crate's folder out/.
    let out = env::var("OUT_DIR").expect("cargo names a folder for what is made");
    let archive = exports.join("out/libexports_c.a");
    fs::copy(archive, Path::new(&out).join("libexports.a")).expect("the archive is there");
    println!("cargo:rustc-link-search=native={out}");
    println!("cargo:rustc-link-lib=static=exports");
    watch(&root.join("crates.txt"));
    for entry in fs::read_dir(root.join("crates")).expect("the crates are there") {
        let folder = entry.expect("a crate can be listed").path();
        // What the archive is made from, and not a crate's out/: each run of the
        // kit writes there.
        for part in ["src", "specs", "proofs"] {
            watch(&folder.join(part));
        }
    }
}

/// Has cargo run this again where a file changes; one that is not there it
/// would take for one that always does.
fn watch(path: &Path) {
    if path.exists() {
        println!("cargo:rerun-if-changed={}", path.display());
    }
}
