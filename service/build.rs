//! Has `rt` prove the library and write its archive, and links that.

use std::path::{Path, PathBuf};
use std::process::{Command, exit};
use std::time::SystemTime;
use std::{fs, io};

const CRATES: &str = "../crates";
const LIST: &str = "../crates.txt";
/// What a crate's sources lie in; `rt` keeps its own work beside them.
const PARTS: [&str; 3] = ["src", "specs", "proofs"];
/// The crate that exports the calls, and the archive that `rt lib` leaves in it.
const EXPORTS: &str = "../crates/leaveoff_c";
const MADE: &str = "../crates/leaveoff_c/out/libleaveoff_c.a";
const FOLDER: &str = "../target/staticlib";
const ARCHIVE: &str = "../target/staticlib/libleaveoff.a";

fn main() {
    // The archive too: where it is removed, cargo would otherwise go on testing the one that it
    // linked before.
    println!("cargo:rerun-if-changed={ARCHIVE}");
    match archive_folder() {
        Ok(folder) => {
            println!("cargo:rustc-link-search=native={folder}");
            println!("cargo:rustc-link-lib=static=leaveoff");
        }
        Err(why) => {
            eprintln!("service: no archive of the library to link: {why}");
            exit(1);
        }
    }
}

fn archive_folder() -> Result<String, String> {
    let sources = sources().map_err(|e| format!("the sources cannot be found: {e}"))?;
    for path in &sources {
        println!("cargo:rerun-if-changed={}", path.display());
    }
    if !is_current(&sources).map_err(|e| format!("the sources cannot be read: {e}"))? {
        make()?;
    }
    let folder = fs::canonicalize(FOLDER).map_err(|e| format!("{FOLDER}: {e}"))?;
    let name = folder
        .to_str()
        .ok_or("the repository's path is not UTF-8")?;
    Ok(name.to_string())
}

/// The list of the crates, and the folders and files that their sources lie in.
fn sources() -> io::Result<Vec<PathBuf>> {
    let mut found = vec![PathBuf::from(LIST)];
    for entry in fs::read_dir(CRATES)? {
        let folder = entry?.path();
        let parts = PARTS.iter().map(|part| folder.join(part));
        found.extend(parts.filter(|part| part.exists()));
    }
    Ok(found)
}

/// Whether the archive is newer than every source. `rt` reads all of them each time it is asked
/// for the archive, and cargo asks once for each profile.
fn is_current(sources: &[PathBuf]) -> io::Result<bool> {
    let Ok(made) = fs::metadata(ARCHIVE).and_then(|m| m.modified()) else {
        return Ok(false);
    };
    for path in sources {
        if newest(path)? >= made {
            return Ok(false);
        }
    }
    Ok(true)
}

/// The last change of a file, or of a folder and all in it; a file taken away changes its folder.
fn newest(path: &Path) -> io::Result<SystemTime> {
    let about = fs::metadata(path)?;
    let mut time = about.modified()?;
    if about.is_dir() {
        for entry in fs::read_dir(path)? {
            time = time.max(newest(&entry?.path())?);
        }
    }
    Ok(time)
}

fn make() -> Result<(), String> {
    let start = SystemTime::now();
    // Its output is kept back: cargo reads a build script's standard output as instructions.
    let run = Command::new("rt")
        .arg("lib")
        .current_dir(EXPORTS)
        .output()
        .map_err(|e| format!("`rt` cannot be started (is Rattle's toolchain on the PATH?): {e}"))?;
    if !run.status.success() {
        eprint!("{}", String::from_utf8_lossy(&run.stdout));
        eprint!("{}", String::from_utf8_lossy(&run.stderr));
        return Err(format!("`rt lib` failed in {EXPORTS}, {}", run.status));
    }
    // As old as what it was made from, so that a source changed in the meantime is newer.
    fs::create_dir_all(FOLDER)
        .and_then(|()| fs::copy(MADE, ARCHIVE))
        .and_then(|_| fs::File::options().append(true).open(ARCHIVE))
        .and_then(|archive| archive.set_modified(start))
        .map_err(|e| format!("`rt lib` ended well, but {MADE} to {ARCHIVE}: {e}"))
}
