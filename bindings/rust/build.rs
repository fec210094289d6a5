//! Links the library of the dispatcher, and says which.
//!
//! It is the archive that SPIN_ARCHIVE names, with the allocation that it calls in the one of SPIN_HEAP_ARCHIVE, where
//! that names one. Without SPIN_ARCHIVE, `./spin library` of the repository makes it: the proved one where that is
//! built, and else the plain one, of the same sources, of which nothing is proved.

use std::path::{Path, PathBuf};
use std::process::Command;
use std::{env, fs};

/// The archive with the allocation, where none is named.
const HEAP: &str = "/opt/rattle/c/liblibc_c.a";

fn main() {
    for name in ["SPIN_ARCHIVE", "SPIN_HEAP_ARCHIVE"] {
        println!("cargo::rerun-if-env-changed={name}");
    }
    let linked = match env::var_os("SPIN_ARCHIVE") {
        Some(archive) => link_named(Path::new(&archive)),
        None => link_made(),
    };
    match linked {
        Ok(proved) => {
            println!("cargo::rustc-env=CODZVREGI_PROVED={proved}");
            println!("cargo::warning=with {proved}");
        }
        Err(why) => println!("cargo::error={why}"),
    }
}

/// Has this archive linked.
fn link(archive: &Path) -> Result<(), String> {
    let name = archive.file_stem().and_then(|stem| stem.to_str()).and_then(|stem| stem.strip_prefix("lib"));
    let (Some(name), Some(folder)) = (name, archive.parent()) else {
        return Err(format!("{} is no archive lib..a", archive.display()));
    };
    if !archive.is_file() {
        return Err(format!("{} isn't there", archive.display()));
    }
    println!("cargo::rerun-if-changed={}", archive.display());
    println!("cargo::rustc-link-search=native={}", folder.display());
    println!("cargo::rustc-link-lib=static={name}");
    Ok(())
}

/// Has the archives linked that are named, and answers what is proved of the first, as the file beside it tells.
fn link_named(archive: &Path) -> Result<String, String> {
    link(archive)?;
    let heap = env::var_os("SPIN_HEAP_ARCHIVE").map_or(PathBuf::from(HEAP), PathBuf::from);
    if !heap.as_os_str().is_empty() {
        link(&heap)?;
    }
    let told = fs::read_to_string(archive.with_file_name("proved"));
    let untold = || format!("{}, of which isn't told here what is proved", archive.display());
    Ok(told.map_or_else(|_| untold(), |line| line.trim().to_owned()))
}

/// Has the repository make the library, links it, and answers what is proved of it.
fn link_made() -> Result<String, String> {
    let folder_of = |name| PathBuf::from(env::var_os(name).unwrap_or_default());
    let (here, out) = (folder_of("CARGO_MANIFEST_DIR"), folder_of("OUT_DIR"));
    if env::var_os("HOST") != env::var_os("TARGET") {
        return Err("the library is made for this machine alone; SPIN_ARCHIVE names one for another".to_owned());
    }
    let top = here.join("../..").canonicalize().map_err(|why| format!("the repository: {why}"))?;
    let folder = out.join("library");
    watch(&top);
    let mut make = Command::new("python3");
    make.arg("-IS").arg(top.join("spin")).args(["library", "--out"]).arg(&folder);
    // what cargo says to this script isn't meant for the cargo that it calls
    for (name, _) in env::vars_os() {
        let text = name.to_string_lossy();
        if text == "RUSTC_WORKSPACE_WRAPPER" || text.starts_with("CARGO") && text != "CARGO_HOME" {
            make.env_remove(&name);
        }
    }
    let ran = make.output().map_err(|why| format!("python3, by which the library is made, can't be called: {why}"))?;
    if !ran.status.success() {
        let said = String::from_utf8_lossy(&ran.stderr);
        return Err(said.lines().last().unwrap_or("the library can't be made").to_owned());
    }
    link(&folder.join("libcodzvregi.a"))?;
    let proved = fs::read_to_string(folder.join("proved")).map_err(|why| format!("the library: {why}"))?;
    Ok(proved.trim().to_owned())
}

/// Has this script run again where the library would be another: where the sources of a crate are changed, or what
/// makes it, or where the proved one is made anew.
fn watch(top: &Path) {
    let listed = fs::read_to_string(top.join("crates.txt")).unwrap_or_default();
    let crates = listed.lines().filter_map(|line| line.split([' ', ':']).next());
    let mut files: Vec<PathBuf> = crates.map(|name| top.join("crates").join(name).join("src")).collect();
    files.extend(["crates.txt", "tools/plain", "wrapper/library.py", "wrapper/plain.py"].map(|name| top.join(name)));
    files.push(top.join("crates/spin_c/out/libspin_c.a"));
    for file in files.iter().filter(|file| file.exists()) {
        println!("cargo::rerun-if-changed={}", file.display());
    }
}
