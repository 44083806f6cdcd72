//! Whether two names lead to one file.

use std::ffi::OsStr;
use std::fs;

/// Whether a strip written to `output` would take the place of the section in `input`, by whatever links.
pub fn replaces(input: &OsStr, output: &OsStr) -> bool {
    let place = |path: &OsStr| fs::canonicalize(path).ok().filter(|path| path.is_file());
    let by_path = input != "-" && output != "-" && place(input).is_some_and(|input| Some(input) == place(output));
    by_path || inode::replaces(input, output)
}

/// `-`, or a name such as /dev/stdout.
pub fn is_standard_output(output: &OsStr) -> bool {
    output == "-" || inode::is_standard_output(output)
}

/// Also through hard links and redirections.
#[cfg(unix)]
mod inode {
    use std::ffi::OsStr;
    use std::fs::{self, File, Metadata};
    use std::io;
    use std::os::fd::AsFd;
    use std::os::unix::fs::{FileTypeExt, MetadataExt};

    pub fn replaces(input: &OsStr, output: &OsStr) -> bool {
        let input = if input == "-" { of_stream(io::stdin()) } else { fs::metadata(input).ok() };
        let output = if output == "-" { of_stream(io::stdout()) } else { fs::metadata(output).ok() };
        is_one(input.filter(Metadata::is_file), output)
    }

    /// A device, as a terminal is, can be written by both of its names.
    pub fn is_standard_output(output: &OsStr) -> bool {
        let stream = of_stream(io::stdout()).filter(|found| !found.file_type().is_char_device());
        is_one(stream, fs::metadata(output).ok())
    }

    fn of_stream(stream: impl AsFd) -> Option<Metadata> {
        File::from(stream.as_fd().try_clone_to_owned().ok()?).metadata().ok()
    }

    fn is_one(found: Option<Metadata>, other: Option<Metadata>) -> bool {
        let identity = |found: Metadata| (found.dev(), found.ino());
        found.map(identity).is_some_and(|found| other.map(identity) == Some(found))
    }
}

#[cfg(not(unix))]
mod inode {
    use std::ffi::OsStr;

    pub fn replaces(_: &OsStr, _: &OsStr) -> bool {
        false
    }

    pub fn is_standard_output(_: &OsStr) -> bool {
        false
    }
}
