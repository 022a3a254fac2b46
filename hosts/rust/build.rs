//! Finds the two archives and tells cargo to link them.
//!
//! The library is looked for in the folder NEHPUDRA_LIB, or else where proving
//! it leaves it. What it calls in turn is in the kit's archive libc_c, which is
//! looked for in the folder NEHPUDRA_KIT_C, or else in the folder c beside the
//! manual of the installed kit.

use std::env;
use std::error::Error;
use std::path::{Path, PathBuf};
use std::process::{Command, ExitCode};

fn main() -> ExitCode {
    match link() {
        Ok(()) => ExitCode::SUCCESS,
        Err(error) => {
            // Cargo shows this line where a build script fails.
            eprintln!("nehpudra: {error}");
            ExitCode::FAILURE
        }
    }
}

fn link() -> Result<(), Box<dyn Error>> {
    println!("cargo::rerun-if-changed=build.rs");
    // The library stands first: a linker looks for what it calls in later ones.
    link_archive(&library_folder()?, "nehpudra")?;
    link_archive(&kit_folder()?, "libc_c")
}

fn link_archive(folder: &Path, name: &str) -> Result<(), Box<dyn Error>> {
    let archive = folder.join(format!("lib{name}.a"));
    println!("cargo::rerun-if-changed={}", archive.display());
    if !archive.is_file() {
        let archive = archive.display();
        return Err(format!("{archive} is missing; docs/HOSTS.md says how it is made").into());
    }
    // The linker is not run in the folder that this script is run in.
    let folder = folder.canonicalize()?;
    println!("cargo::rustc-link-search=native={}", folder.display());
    println!("cargo::rustc-link-lib=static={name}");
    Ok(())
}

fn library_folder() -> Result<PathBuf, Box<dyn Error>> {
    if let Some(folder) = folder_in("NEHPUDRA_LIB") {
        return Ok(folder);
    }
    let here = PathBuf::from(env::var("CARGO_MANIFEST_DIR")?);
    Ok(here.join("../../crates/nehpudra/out"))
}

fn kit_folder() -> Result<PathBuf, Box<dyn Error>> {
    if let Some(folder) = folder_in("NEHPUDRA_KIT_C") {
        return Ok(folder);
    }
    let told = Command::new("rt").arg("doc").output().map_err(|error| {
        format!("the kit is not found ({error}); install it, or set NEHPUDRA_KIT_C")
    })?;
    let manual = String::from_utf8(told.stdout)?;
    let kit = Path::new(manual.trim())
        .parent()
        .filter(|_| told.status.success())
        .ok_or("`rt doc` tells no path; set NEHPUDRA_KIT_C")?;
    Ok(kit.join("c"))
}

fn folder_in(variable: &str) -> Option<PathBuf> {
    println!("cargo::rerun-if-env-changed={variable}");
    env::var_os(variable)
        .filter(|folder| !folder.is_empty())
        .map(PathBuf::from)
}
