//! Links libhollytrot.a, from the folder `HOLLYTROT_LIB` or else from where `tools/proved hollytrot` writes it.

use std::env;
use std::path::Path;

fn main() {
    println!("cargo:rerun-if-env-changed=HOLLYTROT_LIB");
    let target = (var("CARGO_CFG_TARGET_ARCH"), var("CARGO_CFG_TARGET_OS"));
    if target != ("x86_64".into(), "linux".into()) {
        println!(
            "cargo:warning=libhollytrot.a is for x86-64 Linux: this target can be checked, not linked"
        );
        return;
    }
    let folder = env::var("HOLLYTROT_LIB").unwrap_or_else(|_| {
        let folder = Path::new(&var("CARGO_MANIFEST_DIR")).join("../target/staticlib");
        folder.display().to_string()
    });
    println!("cargo:rerun-if-changed={folder}/libhollytrot.a");
    println!("cargo:rustc-link-search=native={folder}");
    println!("cargo:rustc-link-lib=static=hollytrot");
}

/// A variable that cargo sets for every build script.
fn var(name: &str) -> String {
    env::var(name).expect("a variable that cargo sets")
}
