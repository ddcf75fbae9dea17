//! Links libhivevigil.a, from the folder that HIVEVIGIL_LIB names, from lib/ next to this crate's folder (a checkout,
//! or an unpacked release), or from where pkg-config says that it is installed.
use std::env;
use std::path::PathBuf;
use std::process::Command;

const ARCHIVE: &str = "libhivevigil.a";

fn beside_the_crate() -> Option<PathBuf> {
    let folder = PathBuf::from(env::var_os("CARGO_MANIFEST_DIR")?).join("../lib");
    folder.join(ARCHIVE).exists().then_some(folder)
}

fn installed() -> Option<PathBuf> {
    let asked = Command::new("pkg-config")
        .args(["--variable=libdir", "hivevigil"])
        .output()
        .ok()?;
    let folder = PathBuf::from(String::from_utf8(asked.stdout).ok()?.trim());
    folder.join(ARCHIVE).exists().then_some(folder)
}

fn main() {
    println!("cargo:rerun-if-env-changed=HIVEVIGIL_LIB");
    println!("cargo:rerun-if-env-changed=PKG_CONFIG_PATH");
    let named = env::var_os("HIVEVIGIL_LIB").map(PathBuf::from);
    let found = named.or_else(beside_the_crate).or_else(installed);
    let Some(folder) = found.filter(|folder| folder.join(ARCHIVE).exists()) else {
        panic!("no {ARCHIVE}: install Hivevigil, or set HIVEVIGIL_LIB to the folder that has it");
    };
    println!("cargo:rerun-if-changed={}", folder.join(ARCHIVE).display());
    println!("cargo:rustc-link-search=native={}", folder.display());
    println!("cargo:rustc-link-lib=static=hivevigil");
}
