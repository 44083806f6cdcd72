//! The strip's file.

use std::ffi::OsStr;
use std::fs::{self, File, OpenOptions, Permissions};
use std::io::{self, ErrorKind, Write};
use std::path::{Path, PathBuf};
use std::process;

use crate::same;

/// A failure leaves a file that was there as it was.
pub fn write(output: &OsStr, bytes: &[u8]) -> io::Result<()> {
    if same::is_standard_output(output) {
        io::stdout().write_all(bytes)?;
        return io::stdout().flush();
    }
    match replaceable(Path::new(output)) {
        Some(path) => replace(&path, bytes),
        None => fs::write(output, bytes),
    }
}

/// The regular file that the name leads to, or the name where there is nothing yet. None for a pipe or a device, which
/// are written directly.
fn replaceable(output: &Path) -> Option<PathBuf> {
    match fs::canonicalize(output) {
        Ok(path) => path.is_file().then_some(path),
        Err(_) => nothing_yet(output),
    }
}

/// As many links as Linux follows.
const LINKS: usize = 40;

/// The name that a name leads to, link by link, where nothing stands there.
fn nothing_yet(output: &Path) -> Option<PathBuf> {
    let mut path = output.to_owned();
    for _ in 0..LINKS {
        match fs::read_link(&path) {
            Ok(next) => path = path.with_file_name("").join(next),
            Err(_) => return fs::symlink_metadata(&path).is_err().then_some(path),
        }
    }
    None
}

/// Writes a new file beside the old one, which takes its place once it is whole.
fn replace(path: &Path, bytes: &[u8]) -> io::Result<()> {
    let permissions = permissions(path)?;
    let (beside, file) = create_beside(path)?;
    let replaced = fill(file, permissions, bytes).and_then(|()| fs::rename(&beside, path));
    if replaced.is_err() {
        // The failure itself is told, whether or not this succeeds.
        let _ = fs::remove_file(&beside);
    }
    replaced
}

/// Those of the old file, which must be open to writing, if there is one.
fn permissions(path: &Path) -> io::Result<Option<Permissions>> {
    match OpenOptions::new().write(true).open(path) {
        Ok(file) => Ok(Some(file.metadata()?.permissions())),
        Err(error) if error.kind() == ErrorKind::NotFound => Ok(None),
        Err(error) => Err(error),
    }
}

/// Under a name that is not taken.
fn create_beside(path: &Path) -> io::Result<(PathBuf, File)> {
    let mut number = 0;
    loop {
        let beside = path.with_file_name(format!(".intake-{}-{number}", process::id()));
        match File::create_new(&beside) {
            Err(error) if error.kind() == ErrorKind::AlreadyExists => number += 1,
            created => return Ok((beside, created?)),
        }
    }
}

/// The file is closed when this is done, and what could not be stored is known.
fn fill(mut file: File, permissions: Option<Permissions>, bytes: &[u8]) -> io::Result<()> {
    if let Some(permissions) = permissions {
        file.set_permissions(permissions)?;
    }
    file.write_all(bytes)?;
    file.sync_all()
}
