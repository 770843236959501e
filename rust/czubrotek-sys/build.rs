//! Proves and compiles the library with `rt`, and links it.

use std::collections::hash_map::DefaultHasher;
use std::hash::Hasher;
use std::path::{Path, PathBuf};
use std::process::{Command, exit};
use std::{env, fs, slice};

fn main() {
    if let Err(told) = build() {
        eprintln!("czubrotek-sys: {told}");
        exit(1);
    }
}

fn build() -> Result<(), String> {
    let root = folder("CARGO_MANIFEST_DIR")?.join("../..");
    let root = fs::canonicalize(&root).map_err(|e| format!("{}: {e}", root.display()))?;
    let inputs = inputs(&root)?;
    for input in &inputs {
        println!("cargo:rerun-if-changed={}", input.display());
    }
    let made = root.join("crates/exports/out");
    let archive = made.join("libexports.a");
    let stamp = made.join("libexports.stamp");
    // `rt lib` proves `exports` at every call. The stamp saves that where neither the sources nor the archive has
    // changed; the sources are read before the proof, so that an edit meanwhile is seen the next time.
    let sources = digest(&root, &files(inputs)?)?;
    let of_archive = || {
        Ok(format!(
            "{sources} {}\n",
            digest(&root, slice::from_ref(&archive))?
        ))
    };
    let stamped = fs::read_to_string(&stamp).map_err(|e| e.to_string());
    if stamped.is_err() || stamped != of_archive() {
        prove(&root.join("crates/exports"))?;
        fs::write(&stamp, of_archive()?).map_err(|e| format!("{}: {e}", stamp.display()))?;
    }
    // Linked from a copy, as `rt ci` removes what stands in out/.
    let out = folder("OUT_DIR")?;
    fs::copy(&archive, out.join("libexports.a"))
        .map_err(|e| format!("{}: {e}", archive.display()))?;
    println!("cargo:rustc-link-search=native={}", out.display());
    println!("cargo:rustc-link-lib=static=exports");
    Ok(())
}

fn folder(variable: &str) -> Result<PathBuf, String> {
    env::var_os(variable)
        .map(PathBuf::from)
        .ok_or(format!("{variable} is not set: build with cargo"))
}

/// Runs `rt lib` in the crate `exports`; what it printed is part of the error.
fn prove(exports: &Path) -> Result<(), String> {
    let ran = Command::new("rt")
        .arg("lib")
        .current_dir(exports)
        .output()
        .map_err(|e| {
            format!(
                "`rt` cannot be run ({e}). The library is proved and compiled by the Rattle toolchain: \
                 put its `rt` on the PATH and build again."
            )
        })?;
    if ran.status.success() {
        return Ok(());
    }
    Err(format!(
        "`rt lib` failed ({}) in {}. Mend what it says there, then build again. It said:\n{}{}",
        ran.status,
        exports.display(),
        String::from_utf8_lossy(&ran.stdout),
        String::from_utf8_lossy(&ran.stderr),
    ))
}

/// The list of crates and the folders of each crate that the archive may depend on: not what `rt` makes, in out/.
fn inputs(root: &Path) -> Result<Vec<PathBuf>, String> {
    let mut inputs = vec![root.join("crates.txt")];
    for one in entries(&root.join("crates"))? {
        let folders = ["src", "specs", "proofs"].map(|part| one.join(part));
        inputs.extend(folders.into_iter().filter(|folder| folder.is_dir()));
    }
    Ok(inputs)
}

/// Every file in these folders, and each of these that is a file, in the order of names.
fn files(mut paths: Vec<PathBuf>) -> Result<Vec<PathBuf>, String> {
    let mut files = Vec::new();
    while let Some(path) = paths.pop() {
        if path.is_dir() {
            paths.extend(entries(&path)?);
        } else {
            files.push(path);
        }
    }
    files.sort();
    Ok(files)
}

fn entries(folder: &Path) -> Result<Vec<PathBuf>, String> {
    let entries = fs::read_dir(folder).map_err(|e| format!("{}: {e}", folder.display()))?;
    Ok(entries.flatten().map(|entry| entry.path()).collect())
}

/// A digest of files, by name below the root and content.
fn digest(root: &Path, files: &[PathBuf]) -> Result<String, String> {
    let mut hasher = DefaultHasher::new();
    for file in files {
        let content = fs::read(file).map_err(|e| format!("{}: {e}", file.display()))?;
        let name = file.strip_prefix(root).unwrap_or(file);
        hasher.write(name.as_os_str().as_encoded_bytes());
        hasher.write_usize(content.len());
        hasher.write(&content);
    }
    Ok(format!("{:016x}", hasher.finish()))
}
