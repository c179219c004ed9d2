//! Finds the library, or says how to get it.
//!
//! It is looked for in the folder that TEXT_BLOCK_RENDERER_LIB names. If that isn't set, these folders are searched in
//! order: `lib` beside this file, those that `./build` and `./build quick` fill in the repository, and the one that
//! pkg-config says.

use std::env;
use std::path::{Path, PathBuf};
use std::process::Command;

const NAME: &str = "text_block_renderer";
const FOLDER: &str = "TEXT_BLOCK_RENDERER_LIB";
/// What is in the repository, above the folder of this crate.
const HEADER: &str = "../../include/text_block_renderer.h";
const MADE: &str = "../../out";
/// Its folders in a release, and in the repository with proofs and without.
const ABOVE: [&str; 3] = ["../../lib", "../../out/lib", "../../out/quick/lib"];
/// Its folder in the packed crate.
const BESIDE: &str = "lib";

const HOW_TO_GET_IT: &str =
    "In its repository ./build quick makes it without proofs, and ./build with them. Elsewhere \
                             set TEXT_BLOCK_RENDERER_LIB to the folder that has it";

fn main() {
    println!("cargo::rerun-if-env-changed={FOLDER}");
    println!("cargo::rerun-if-env-changed=PKG_CONFIG_PATH");
    println!("cargo::rerun-if-changed=build.rs");
    match find() {
        Ok(folder) => link(&folder),
        Err(missing) => fail_to_link(&missing),
    }
}

/// The folder of the library, or what is missing.
fn find() -> Result<PathBuf, String> {
    match env::var_os(FOLDER).filter(|folder| !folder.is_empty()) {
        Some(folder) => named(Path::new(&folder)),
        None => beside().or_else(in_repository).or_else(by_pkg_config).ok_or_else(missing),
    }
}

/// The folder that the variable names, which begins at the root or in that of this crate.
fn named(folder: &Path) -> Result<PathBuf, String> {
    let folder = absolute(folder);
    if has_library(&folder) {
        return Ok(folder);
    }
    let path = folder.display();
    Err(format!("{path}, which {FOLDER} names, has no lib{NAME}.a and no lib{NAME}.so. {HOW_TO_GET_IT}"))
}

fn beside() -> Option<PathBuf> {
    Some(absolute(Path::new(BESIDE))).filter(|folder| has_library(folder))
}

/// The proved library comes first, so what is made is watched.
fn in_repository() -> Option<PathBuf> {
    if !Path::new(HEADER).exists() {
        return None;
    }
    println!("cargo::rerun-if-changed={MADE}");
    ABOVE.iter().map(|folder| absolute(Path::new(folder))).find(|folder| has_library(folder))
}

fn by_pkg_config() -> Option<PathBuf> {
    let asked = Command::new("pkg-config").args(["--variable=libdir", NAME]).output().ok()?;
    let folder = String::from_utf8(asked.stdout).ok()?;
    Some(PathBuf::from(folder.trim())).filter(|folder| asked.status.success() && has_library(folder))
}

fn missing() -> String {
    let looked = format!("{FOLDER} isn't set, and neither {BESIDE}/ nor pkg-config has it");
    format!("lib{NAME} isn't found: {looked}. {HOW_TO_GET_IT}")
}

fn absolute(folder: &Path) -> PathBuf {
    env::current_dir().map(|here| here.join(folder)).unwrap_or_else(|_| folder.to_owned())
}

fn has_library(folder: &Path) -> bool {
    static_in(folder).exists() || shared_in(folder).exists()
}

fn static_in(folder: &Path) -> PathBuf {
    folder.join(format!("lib{NAME}.a"))
}

fn shared_in(folder: &Path) -> PathBuf {
    folder.join(format!("lib{NAME}.so"))
}

fn link(folder: &Path) {
    let (kind, file) = match static_in(folder) {
        file if file.exists() => ("static", file),
        _ => ("dylib", shared_in(folder)),
    };
    println!("cargo::rustc-link-search=native={}", folder.display());
    println!("cargo::rustc-link-lib={kind}={NAME}");
    println!("cargo::rerun-if-changed={}", file.display());
}

/// Warns, since `cargo check` and `cargo doc` need no library. When a program is linked, the compiler says that it
/// doesn't find this name.
fn fail_to_link(missing: &str) {
    println!("cargo::warning={missing}");
    println!(
        "cargo::rustc-link-lib=static={NAME} (run ./build quick in its repository, or set {FOLDER} to its folder)"
    );
}
