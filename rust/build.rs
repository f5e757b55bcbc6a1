//! Finds the static library, libbellpulsar.a: in the folder that BELLPULSAR_LIB_DIR names; else in the crate's own folder
//! lib, as a release has it; else, in a clone of the repository, where its build.sh makes it; else where pkg-config says
//! that it is installed.

use std::env;
use std::fs;
use std::path::{Path, PathBuf};
use std::process::{exit, Command};

fn main() {
    let library = library().unwrap_or_else(|why| {
        eprintln!("bellpulsar: {why}");
        exit(1)
    });
    let folder = library.parent().unwrap();
    println!("cargo::rerun-if-changed={}", library.display());
    println!("cargo::rustc-link-search=native={}", folder.display());
    println!("cargo::rustc-link-lib=static=bellpulsar");
}

fn library() -> Result<PathBuf, String> {
    if let Some(folder) = variable("BELLPULSAR_LIB_DIR") {
        return named(&folder);
    }
    let own = env::current_dir().map_err(|error| error.to_string())?;
    if let Some(library) = within(&own.join("lib")) {
        return Ok(library);
    }
    // The crate may also have been copied into a project that has a build.sh of its own.
    let root = fs::canonicalize("..").map_err(|error| error.to_string())?;
    if root.join("build.sh").is_file() && root.join("crates/capi_map").is_dir() {
        return built(&root);
    }
    installed()
}

/// What the environment has under this name, where that is not empty. Cargo runs this again where it changes.
fn variable(name: &str) -> Option<String> {
    println!("cargo::rerun-if-env-changed={name}");
    env::var(name).ok().filter(|value| !value.is_empty())
}

/// The library in this folder.
fn within(folder: &Path) -> Option<PathBuf> {
    Some(folder.join("libbellpulsar.a")).filter(|library| library.is_file())
}

fn named(folder: &str) -> Result<PathBuf, String> {
    // Cargo runs this in the crate's own folder, which is not what a relative path was meant from.
    if Path::new(folder).is_relative() {
        return Err(format!(
            "BELLPULSAR_LIB_DIR is {folder}: give an absolute path"
        ));
    }
    within(Path::new(folder)).ok_or(format!(
        "BELLPULSAR_LIB_DIR is {folder}, and no libbellpulsar.a is there"
    ))
}

/// Built where it is missing or old, which build.sh finds out.
fn built(root: &Path) -> Result<PathBuf, String> {
    let mut sources: Vec<PathBuf> = ["build.sh", "crates.txt", "include/bellpulsar.h"]
        .map(|name| root.join(name))
        .into();
    // A crate's folder has a further one, `out`, in which the prover writes.
    for part in fs::read_dir(root.join("crates")).map_err(|error| error.to_string())? {
        let folder = part.map_err(|error| error.to_string())?.path();
        sources.extend(["src", "specs", "proofs"].map(|name| folder.join(name)));
    }
    for source in sources.iter().filter(|source| source.exists()) {
        println!("cargo::rerun-if-changed={}", source.display());
    }
    let script = root.join("build.sh");
    match Command::new(&script).status() {
        Ok(status) if status.success() => {}
        Ok(status) if status.code().is_none() => {
            return Err(format!("{} ended with {status}", script.display()));
        }
        Ok(_) => return Err(format!("{} failed, as told above", script.display())),
        Err(error) => return Err(format!("{} does not run: {error}", script.display())),
    }
    within(&root.join("build")).ok_or(format!("{} made no libbellpulsar.a", script.display()))
}

fn installed() -> Result<PathBuf, String> {
    for path in ["PKG_CONFIG_PATH", "PKG_CONFIG_LIBDIR"] {
        println!("cargo::rerun-if-env-changed={path}");
    }
    let found = pkg_config().map_err(|why| {
        format!(
            "no libbellpulsar.a is found. Name its folder in BELLPULSAR_LIB_DIR, or install it (make install, in a clone \
             of the repository) where pkg-config looks: PKG_CONFIG_PATH adds a folder to that.\n{why}\nThe crate of a \
             release has it."
        )
    })?;
    within(Path::new(&found)).ok_or(format!(
        "pkg-config says that bellpulsar is in {found}, and no libbellpulsar.a is there"
    ))
}

/// The folder of the installed libraries, where they have all that this crate calls.
fn pkg_config() -> Result<String, String> {
    let least = concat!("bellpulsar >= ", env!("CARGO_PKG_VERSION"));
    let next: u32 = env!("CARGO_PKG_VERSION_MAJOR").parse::<u32>().unwrap() + 1;
    let below = format!("bellpulsar < {next}");
    ask_pkg_config(&["--exists", "--print-errors", least, &below])?;
    ask_pkg_config(&["--variable=libdir", "bellpulsar"])
}

fn ask_pkg_config(words: &[&str]) -> Result<String, String> {
    let program = variable("PKG_CONFIG").unwrap_or("pkg-config".to_string());
    let done = Command::new(&program)
        .args(words)
        .output()
        .map_err(|error| format!("{program} does not run: {error}"))?;
    let text = |bytes: &[u8]| String::from_utf8_lossy(bytes).trim().to_string();
    if done.status.success() {
        Ok(text(&done.stdout))
    } else {
        Err(format!("{program} says: {}", text(&done.stderr)))
    }
}
