//! How a run went: what passed, and what failed, with a file for the first few.

use std::fs;
use std::io;
use std::path::{Path, PathBuf};

/// Enough to see what is wrong; the rest is only counted.
const MOST_FILES: u64 = 10;

pub struct Tally {
    folder: PathBuf,
    passed: u64,
    failed: u64,
}

impl Tally {
    /// The files go into this folder, which is made when there is one to write.
    pub fn new(folder: &Path) -> Self {
        Tally {
            folder: folder.to_path_buf(),
            passed: 0,
            failed: 0,
        }
    }

    pub fn pass(&mut self) {
        self.passed += 1;
    }

    /// Counts a failure and, of the first few, writes a file of what `text` tells.
    pub fn fail(&mut self, name: &str, text: impl FnOnce() -> String) -> io::Result<()> {
        self.failed += 1;
        if self.failed > MOST_FILES {
            return Ok(());
        }
        fs::create_dir_all(&self.folder)?;
        let path = self.folder.join(format!("{name}.txt"));
        fs::write(&path, text())?;
        println!("{}", path.display());
        Ok(())
    }

    pub fn all_passed(&self) -> bool {
        self.passed > 0 && self.failed == 0
    }
}

impl std::fmt::Display for Tally {
    fn fmt(&self, out: &mut std::fmt::Formatter) -> std::fmt::Result {
        write!(out, "{} passed, {} failed", self.passed, self.failed)
    }
}
