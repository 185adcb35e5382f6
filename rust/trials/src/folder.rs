//! A folder for the files of a family.

use std::path::PathBuf;
use std::{env, fs, io, process};

/// A folder with files in it, which goes when it is dropped.
pub struct Folder(pub PathBuf);

impl Folder {
    /// A new folder, named after whom it is for.
    pub fn new(whose: &str) -> Result<Folder, String> {
        let folder = Folder(env::temp_dir().join(format!("{whose}.{}", process::id())));
        fs::create_dir(&folder.0).map_err(|error| error.to_string())?;
        Ok(folder)
    }

    /// The folder with one file more.
    pub fn with(self, name: &str, bytes: &[u8]) -> Result<Folder, String> {
        let written: io::Result<()> = fs::write(self.0.join(name), bytes);
        written.map_err(|error| error.to_string())?;
        Ok(self)
    }
}

impl Drop for Folder {
    fn drop(&mut self) {
        // What can't be removed is left to the system's own cleaning.
        let _ = fs::remove_dir_all(&self.0);
    }
}
