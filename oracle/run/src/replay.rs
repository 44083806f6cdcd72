//! What `crates/replay` is given and is to write: the sample of the readers' answers, then those of strip calls, of look-ups
//! and of strips read back.

use std::path::Path;
use std::{fs, io};

use crate::{asset_vectors, strip_read_vectors, strip_vectors, vectors};

pub struct Files {
    /// Each by its path from the crate's folder.
    pub files: Vec<(String, Vec<u8>)>,
    /// What the samples hold, so that a lack is seen.
    told: String,
}

pub fn files() -> Files {
    let (mut files, mut stdout, mut told) = (Vec::new(), String::new(), String::new());
    let samples =
        [vectors::written(), strip_vectors::written(), asset_vectors::written(), strip_read_vectors::written()];
    for sample in samples {
        files.extend(sample.data.map(|(name, bytes)| (format!("data/{name}"), bytes)));
        stdout += &sample.stdout;
        told += &sample.told;
    }
    files.push(("stdout".into(), stdout.into_bytes()));
    Files { files, told }
}

impl Files {
    /// Writes them below the crate's folder, and tells what was taken.
    pub fn write(self, folder: &Path) -> io::Result<String> {
        fs::create_dir_all(folder.join("data"))?;
        for (path, bytes) in self.files {
            fs::write(folder.join(path), bytes)?;
        }
        Ok(self.told)
    }
}
