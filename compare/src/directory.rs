//! A directory of this process in the temporary folder, for programs that read files.

use std::path::{Path, PathBuf};
use std::{env, fs, io};

/// A directory in the temporary folder, which is removed with all that is in it
/// when it goes out of use.
pub struct Directory(PathBuf);

impl Directory {
    pub fn new() -> io::Result<Directory> {
        let mut number = 0;
        loop {
            let name = format!("compare-{}-files-{number}", std::process::id());
            let path = env::temp_dir().join(name);
            match fs::create_dir(&path) {
                // Somebody else's, or another thread's: left alone.
                Err(error) if error.kind() == io::ErrorKind::AlreadyExists => number += 1,
                made => return made.map(|()| Directory(path)),
            }
        }
    }

    pub fn path(&self) -> &Path {
        &self.0
    }

    /// Where a file of this name is, or would be.
    pub fn path_of(&self, name: &str) -> PathBuf {
        self.0.join(name)
    }

    /// Has a file of this name hold these bytes alone.
    pub fn write(&self, name: &str, bytes: &[u8]) -> io::Result<()> {
        fs::write(self.path_of(name), bytes)
    }
}

impl Drop for Directory {
    fn drop(&mut self) {
        // Where it cannot be removed, nothing that was compared is wrong.
        let _ = fs::remove_dir_all(&self.0);
    }
}
