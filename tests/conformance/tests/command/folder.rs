//! A folder for the inputs of a test, which is removed at its end.

use std::ffi::OsStr;
use std::fs;
use std::os::unix::ffi::OsStrExt;
use std::path::PathBuf;
use std::process::{self, Command};

pub struct Folder {
    pub path: PathBuf,
}

impl Folder {
    /// An empty folder. Each test has a name of its own.
    pub fn new(name: &str) -> Folder {
        let name = format!("{name}-{}", process::id());
        let path = PathBuf::from(env!("CARGO_TARGET_TMPDIR")).join(name);
        // One that an earlier process of this number left when it was stopped.
        let _ = fs::remove_dir_all(&path);
        fs::create_dir_all(&path).expect("a folder for inputs");
        Folder { path }
    }

    /// Writes a file into it. Its name may have any bytes but 0 and the slash.
    pub fn write(&self, name: &[u8], bytes: &[u8]) {
        fs::write(self.path.join(OsStr::from_bytes(name)), bytes).expect("a written file");
    }

    /// The command, started in this folder: so the names of its files are words of the command.
    pub fn of<'a>(&self, command: &'a mut Command) -> &'a mut Command {
        command.current_dir(&self.path)
    }
}

impl Drop for Folder {
    fn drop(&mut self) {
        let _ = fs::remove_dir_all(&self.path);
    }
}
