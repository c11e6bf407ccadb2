//! Says where libcola.a lies: in the folder that COLA_LIB_DIR names, or where pkg-config has it.

use std::env;
use std::process::Command;

fn main() {
    println!("cargo:rerun-if-env-changed=COLA_LIB_DIR");
    println!("cargo:rerun-if-env-changed=PKG_CONFIG_PATH");
    let folder = env::var("COLA_LIB_DIR").ok().or_else(installed);
    if let Some(folder) = folder {
        println!("cargo:rerun-if-changed={folder}/libcola.a");
        println!("cargo:rustc-link-search=native={folder}");
    }
    println!("cargo:rustc-link-lib=static=cola");
}

/// The folder of an installed library.
fn installed() -> Option<String> {
    let output = Command::new("pkg-config").args(["--variable=libdir", "cola"]).output().ok()?;
    let folder = String::from_utf8(output.stdout).ok()?.trim().to_string();
    (output.status.success() && !folder.is_empty()).then_some(folder)
}
