//! Finds libzahupnik.a and has it linked into the crate, or says where it looked and what to do.
//!
//! Looked for in these places, and the first that has it is taken:
//!
//! 1. ZAHUPNIK_LIB_DIR, a folder; where it is set, nowhere else;
//! 2. ../../../lib, where the crate stands in an archive or an installation as share/zahupnik/rust;
//! 3. ../target/staticlib, where it stands in the repository and `make` has built;
//! 4. the libdir that pkg-config, or the command that PKG_CONFIG names, has for zahupnik of the crate's major version.
//!
//! What came with the crate goes before what is installed, so that a crate is not run on the library of another version.

use std::env;
use std::path::{Path, PathBuf};
use std::process::{self, Command};

const FILE: &str = "libzahupnik.a";

fn main() {
    for name in ["ZAHUPNIK_LIB_DIR", "PKG_CONFIG", "PKG_CONFIG_PATH", "PKG_CONFIG_LIBDIR"] {
        println!("cargo:rerun-if-env-changed={name}");
    }
    println!("cargo:rerun-if-changed=build.rs");
    if let Err(why) = expect_machine().and_then(|()| find()).and_then(|folder| link(&folder)) {
        eprintln!("zahupnik: {why}");
        process::exit(1);
    }
}

/// A variable that cargo sets for a build script.
fn told(name: &str) -> String {
    env::var(name).unwrap_or_default()
}

fn expect_machine() -> Result<(), String> {
    let (machine, system, bits) = (told("CARGO_CFG_TARGET_ARCH"), told("CARGO_CFG_TARGET_OS"), told("CARGO_CFG_TARGET_POINTER_WIDTH"));
    if (&*machine, &*system, &*bits) == ("x86_64", "linux", "64") {
        return Ok(());
    }
    Err(format!(
        "the library is for x86-64 Linux, and this build is for {machine} {system} with pointers of {bits} bits: \
         build for x86_64-unknown-linux-gnu"
    ))
}

/// The folder that has the library.
fn find() -> Result<PathBuf, String> {
    if let Some(folder) = env::var_os("ZAHUPNIK_LIB_DIR").filter(|folder| !folder.is_empty()) {
        let folder = PathBuf::from(folder);
        if holds_library(&folder) {
            return Ok(folder);
        }
        return Err(format!(
            "ZAHUPNIK_LIB_DIR is '{}', and there is no {FILE} there: set it to the whole path of the folder that has {FILE}, or unset it",
            folder.display()
        ));
    }
    let crate_folder = PathBuf::from(told("CARGO_MANIFEST_DIR"));
    let beside = [crate_folder.join("../../../lib"), crate_folder.join("../target/staticlib")];
    if let Some(folder) = beside.iter().find(|folder| holds_library(folder)) {
        return Ok(folder.clone());
    }
    match ask_pkg_config() {
        Ok(folder) if holds_library(&folder) => Ok(folder),
        asked => Err(not_found(&beside, asked)),
    }
}

fn holds_library(folder: &Path) -> bool {
    folder.join(FILE).is_file()
}

/// The folder that pkg-config has for the library, or why it has none.
fn ask_pkg_config() -> Result<PathBuf, String> {
    let command = env::var_os("PKG_CONFIG").unwrap_or_else(|| "pkg-config".into());
    let shown = command.to_string_lossy().into_owned();
    let ask = |words: &[&str]| Command::new(&command).args(words).output().map_err(|error| format!("{shown}: {error}"));
    let major: u32 = told("CARGO_PKG_VERSION_MAJOR").parse().unwrap_or_default();
    if !ask(&["--exists", &format!("zahupnik >= {major} zahupnik < {}", major + 1)])?.status.success() {
        return Err(format!("{shown} knows no zahupnik of version {major}"));
    }
    let folder = ask(&["--variable=libdir", "zahupnik"])?.stdout;
    // some versions of the command put a backslash before a space
    Ok(PathBuf::from(String::from_utf8_lossy(&folder).trim().replace("\\ ", " ")))
}

fn not_found(beside: &[PathBuf], asked: Result<PathBuf, String>) -> String {
    let mut why = format!("{FILE} was not found. Looked for in\n");
    for folder in beside {
        why += &format!("    {}\n", folder.display());
    }
    why += &match asked {
        Ok(folder) => format!("    {} (by pkg-config)\n", folder.display()),
        Err(reason) => format!("    and asked pkg-config ({reason})\n"),
    };
    why + "Install the library, or build it in the repository by `make`, \
           or set ZAHUPNIK_LIB_DIR to the folder that has it."
}

/// Tells cargo to link the library of a folder into the crate.
fn link(folder: &Path) -> Result<(), String> {
    let shown = folder.display();
    let folder = folder.canonicalize().map_err(|error| format!("{shown}: {error}"))?;
    let path = folder.to_str().filter(|path| !path.contains('\n'));
    let path = path.ok_or_else(|| format!("{shown}: cargo takes no path with a line's end or with what is not UTF-8: move the library"))?;
    println!("cargo:rerun-if-changed={path}/{FILE}");
    println!("cargo:rustc-link-search=native={path}");
    println!("cargo:rustc-link-lib=static=zahupnik");
    Ok(())
}
