//! Links the archive of the proved drive, made by `tools/archive` at the project's root.

use std::env;
use std::path::{Path, PathBuf};

/// Names another folder that holds the archive. A relative one is looked for in the package (or
/// workspace) that is built and that sets it, not in this one.
const FOLDER_VARIABLE: &str = "PANTOGLIDE_ARCHIVE_DIR";
const ARCHIVE: &str = "libpantoglide.a";

fn main() {
    println!("cargo:rerun-if-env-changed={FOLDER_VARIABLE}");
    let folder = match env::var_os(FOLDER_VARIABLE).map(PathBuf::from) {
        Some(folder) if folder.is_absolute() => folder,
        Some(folder) => built_package().join(folder),
        None => variable("CARGO_MANIFEST_DIR").join("../target/staticlib"),
    };
    let archive = folder.join(ARCHIVE);
    println!("cargo:rerun-if-changed={}", archive.display());
    if !archive.is_file() {
        stop(&format!(
            "There is no archive {}.\nRun `tools/archive` at the project's root first, \
             or name the folder that holds it in {FOLDER_VARIABLE}.",
            archive.display()
        ));
    }
    if env::var_os("CARGO_CFG_TARGET_ARCH").is_some_and(|target| target != "x86_64") {
        println!("cargo:warning=The archive is for x86-64, which this target is not.");
    }
    println!("cargo:rustc-link-search=native={}", folder.display());
    println!("cargo:rustc-link-lib=static=pantoglide");
}

/// The root of what is built: the first folder with a manifest above the one that cargo builds in,
/// or, where that lies elsewhere, above the one that cargo was called in.
fn built_package() -> PathBuf {
    let called_in = env::var_os("PWD").map(PathBuf::from);
    let roots = [Some(variable("OUT_DIR")), called_in];
    let found = roots
        .iter()
        .flatten()
        .find_map(|start| package_above(start));
    found.unwrap_or_else(|| stop(&format!("Name an absolute folder in {FOLDER_VARIABLE}.")))
}

fn package_above(start: &Path) -> Option<PathBuf> {
    let has_manifest = |folder: &&Path| folder.join("Cargo.toml").is_file();
    start.ancestors().find(has_manifest).map(Path::to_path_buf)
}

fn variable(name: &str) -> PathBuf {
    env::var_os(name).expect("cargo sets it").into()
}

fn stop(why: &str) -> ! {
    eprintln!("{why}");
    std::process::exit(1);
}
