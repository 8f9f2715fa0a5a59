//! Links libzakdomp.a: from the folder that the environment variable `ZAKDOMP_DIR` names; else from where the
//! repository or the installed crate has it; else from where pkg-config says.

use std::path::Path;
use std::process::Command;

fn main() {
    for name in ["ZAKDOMP_DIR", "PKG_CONFIG", "PKG_CONFIG_PATH"] {
        println!("cargo::rerun-if-env-changed={name}");
    }
    let own = concat!(env!("CARGO_MANIFEST_DIR"), "/../target/zakdomp");
    let folder = std::env::var("ZAKDOMP_DIR").unwrap_or_else(|_| {
        if holds(own) {
            own.into()
        } else {
            told().unwrap_or(own.into())
        }
    });
    if !holds(&folder) {
        println!(
            "cargo::warning=no libzakdomp.a in {folder}: ZAKDOMP_DIR names another folder, PKG_CONFIG_PATH that of \
             zakdomp.pc"
        );
    }
    println!("cargo::rerun-if-changed={folder}/libzakdomp.a");
    println!("cargo::rustc-link-search=native={folder}");
    println!("cargo::rustc-link-lib=static=zakdomp");
}

fn holds(folder: &str) -> bool {
    Path::new(folder).join("libzakdomp.a").exists()
}

/// The folder of an installed library, where pkg-config knows one.
fn told() -> Option<String> {
    let program = std::env::var("PKG_CONFIG").unwrap_or("pkg-config".into());
    let output = Command::new(program).args(["--variable=libdir", "zakdomp"]).output().ok()?;
    let folder = String::from_utf8(output.stdout).ok()?.trim().to_string();
    (output.status.success() && !folder.is_empty()).then_some(folder)
}
