//! Links the proved static library: that of the folder that MLAT_SOLVER_LIB names; else that of the repository, where
//! `tools/shared_library` writes it; else one that is installed, by pkg-config or in the system's folders.

use std::path::PathBuf;
use std::process::Command;

const ARCHIVE: &str = "libmlat_solver.a";

fn main() {
    println!("cargo::rerun-if-env-changed=MLAT_SOLVER_LIB");
    println!("cargo::rerun-if-env-changed=PKG_CONFIG_PATH");
    let folders = folders();
    let Some(folder) = folders.iter().find(|folder| folder.join(ARCHIVE).exists()) else {
        let names: Vec<String> = folders.iter().map(|folder| folder.display().to_string()).collect();
        println!(
            "cargo::error={ARCHIVE} is not in {}: run `tools/shared_library` in the repository, or install it, or \
             name its folder with MLAT_SOLVER_LIB",
            names.join(", ")
        );
        return;
    };
    println!("cargo::rerun-if-changed={}", folder.join(ARCHIVE).display());
    println!("cargo::rustc-link-search=native={}", folder.display());
    println!("cargo::rustc-link-lib=static=mlat_solver");
}

/// Where the library may be, in turn; a folder that is named is the only one.
fn folders() -> Vec<PathBuf> {
    if let Some(folder) = std::env::var_os("MLAT_SOLVER_LIB") {
        return vec![PathBuf::from(folder)];
    }
    let manifest = std::env::var_os("CARGO_MANIFEST_DIR").expect("cargo sets it");
    let repository = PathBuf::from(manifest).join("../target/staticlib");
    let system = ["/usr/local/lib", "/usr/lib"].map(PathBuf::from);
    [repository].into_iter().chain(installed()).chain(system).collect()
}

/// The folder that pkg-config knows of, where there is pkg-config.
fn installed() -> Option<PathBuf> {
    let asked = Command::new("pkg-config")
        .args(["--variable=libdir", "mlat_solver"])
        .output()
        .ok()?;
    let folder = String::from_utf8(asked.stdout).ok()?;
    (asked.status.success() && !folder.trim().is_empty()).then(|| PathBuf::from(folder.trim()))
}
