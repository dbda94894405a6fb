//! Has `rt lib` prove the library and make its archive, in the crate `paqelzim_c`, and links a copy of that archive
//! by the name libpaqelzim.a.
use std::path::Path;
use std::process::Command;

fn main() {
    let package = std::env::var("CARGO_MANIFEST_DIR").expect("cargo names the package's folder");
    let out = std::env::var("OUT_DIR").expect("cargo names a folder for the copy");
    let root = Path::new(&package)
        .parent()
        .expect("the package stands in the repository");
    let watch = |path: &Path| println!("cargo:rerun-if-changed={}", path.display());
    for part in ["crates.txt", "toolchain.txt"] {
        watch(&root.join(part));
    }
    // What a proof reads of each crate. Beside it lies out/, which `rt` writes.
    let crates = std::fs::read_dir(root.join("crates")).expect("the crates stand in crates/");
    for folder in crates {
        let folder = folder.expect("crates/ can be read").path();
        for part in ["src", "specs", "proofs"].map(|part| folder.join(part)) {
            if part.exists() {
                watch(&part);
            }
        }
    }
    let exports = root.join("crates/paqelzim_c");
    let made = Command::new("rt")
        .arg("lib")
        .current_dir(&exports)
        .output()
        .unwrap_or_else(|e| panic!("rt, which proves and builds the library, cannot be run: {e}"));
    if !made.status.success() {
        panic!(
            "rt lib failed in crates/paqelzim_c:\n{}{}",
            String::from_utf8_lossy(&made.stdout),
            String::from_utf8_lossy(&made.stderr)
        );
    }
    // A copy, since `rt` removes what lies in out/ and cargo would not notice.
    let archive = exports.join("out/libpaqelzim_c.a");
    std::fs::copy(&archive, Path::new(&out).join("libpaqelzim.a"))
        .unwrap_or_else(|e| panic!("{}: {e}", archive.display()));
    println!("cargo:rustc-link-search=native={out}");
    println!("cargo:rustc-link-lib=static=paqelzim");
}
