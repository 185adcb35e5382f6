//! A file that the repository keeps.

use std::fs;
use std::io;
use std::path::Path;

/// What a file has to hold.
pub struct File {
    /// Where it stands, from the repository's top folder.
    pub path: &'static str,
    /// All its bytes.
    pub bytes: Vec<u8>,
}

impl File {
    /// Writes the file, with the folders it stands in.
    pub fn write(&self, dir: &Path) -> io::Result<()> {
        let path = dir.join(self.path);
        if let Some(folder) = path.parent() {
            fs::create_dir_all(folder)?;
        }
        fs::write(path, &self.bytes)
    }

    /// Whether the file is there and holds just these bytes.
    pub fn agrees(&self, dir: &Path) -> bool {
        fs::read(dir.join(self.path)).is_ok_and(|bytes| bytes == self.bytes)
    }

    /// How many lines it has.
    #[cfg(test)]
    pub fn lines(&self) -> usize {
        self.bytes.iter().filter(|&&byte| byte == b'\n').count()
    }
}
