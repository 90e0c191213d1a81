//! A folder for the files of a test.

use std::fs;
use std::path::{Path, PathBuf};

/// A folder of its own, which is gone when the test ends, however it ends. It stands where the test's build says
/// (`CARGO_TARGET_TMPDIR`) and not in the folder for temporary files: a test that is killed leaves nothing there either.
pub struct Room(PathBuf);

impl Room {
    pub fn new(folder: &str, name: &str) -> Room {
        let own = Path::new(folder).join(format!("{name}-{}", std::process::id()));
        fs::create_dir_all(&own).expect("a folder can be made");
        Room(own)
    }

    pub fn path(&self) -> &Path {
        &self.0
    }

    /// A file in it.
    pub fn put(&self, name: &str, bytes: &[u8]) -> PathBuf {
        let path = self.0.join(name);
        fs::write(&path, bytes).expect("a file can be written");
        path
    }
}

impl Drop for Room {
    fn drop(&mut self) {
        let _ = fs::remove_dir_all(&self.0);
    }
}

#[cfg(test)]
mod tests {
    use super::Room;
    use std::panic::catch_unwind;

    #[test]
    fn nothing_stays_of_a_test_that_fails() {
        let folder = concat!(env!("CARGO_MANIFEST_DIR"), "/target/room");
        let failed = catch_unwind(|| {
            let room = Room::new(folder, "failing");
            assert!(!room.put("file", b"bytes").exists(), "it fails here");
        });
        assert!(failed.is_err());
        std::fs::remove_dir(folder).expect("the folder is empty");
    }
}
