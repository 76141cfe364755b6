//! Files that appear whole or not at all.
use crate::fault::{Fault, Shown};
use crate::signals;
use std::ffi::OsStr;
use std::fs::{self, OpenOptions};
use std::io::{self, Write};
use std::os::unix::ffi::OsStrExt;
use std::path::{Path, PathBuf};
use std::process;

/// Writes a new file. One that is there already is replaced with `force` alone, and only if it is a
/// regular file. The mode follows the umask.
pub fn write(file: &OsStr, bytes: &[u8], force: bool) -> Result<(), Fault> {
    let failed = |what: &str| Fault::Failed(format!("cannot write {}: {}", Shown(file.as_bytes()), what));
    let path = target_of(Path::new(file)).map_err(|error| failed(&error.to_string()))?;
    match fs::metadata(&path) {
        Ok(there) if !there.is_file() => return Err(failed("it is no regular file")),
        Ok(_) if !force => return Err(failed("it is there already; --force replaces it")),
        _ => {}
    }
    // Declared before the new file, which is then gone when signals come again.
    let _held = signals::Held::new();
    let new = NewFile::create(&path, bytes).map_err(|error| failed(&error.to_string()))?;
    let placed = match force {
        true => fs::rename(&new.0, &path),
        // A link fails where the name has been taken since, and a rename would not.
        false => fs::hard_link(&new.0, &path),
    };
    placed.map_err(|error| match error.kind() {
        io::ErrorKind::AlreadyExists => failed("it is there already; --force replaces it"),
        _ => failed(&error.to_string()),
    })
}

/// The file that a path stands for, behind symbolic links.
fn target_of(path: &Path) -> io::Result<PathBuf> {
    match fs::symlink_metadata(path) {
        Ok(there) if there.file_type().is_symlink() => fs::canonicalize(path),
        _ => Ok(path.to_path_buf()),
    }
}

/// A file under a name of its own, which is gone when this is dropped.
struct NewFile(PathBuf);

impl NewFile {
    /// Beside the file that it is to become, since neither a link nor a rename leaves a file system.
    fn create(path: &Path, bytes: &[u8]) -> io::Result<NewFile> {
        let folder = match path.parent() {
            Some(folder) if !folder.as_os_str().is_empty() => folder,
            _ => Path::new("."),
        };
        let mut count = 0;
        loop {
            let name = folder.join(format!(".lesmutka-{}-{}", process::id(), count));
            match OpenOptions::new().write(true).create_new(true).open(&name) {
                Ok(mut file) => {
                    let new = NewFile(name);
                    file.write_all(bytes)?;
                    file.sync_all()?;
                    return Ok(new);
                }
                Err(error) if error.kind() == io::ErrorKind::AlreadyExists && count < 100 => count += 1,
                Err(error) => return Err(error),
            }
        }
    }
}

impl Drop for NewFile {
    fn drop(&mut self) {
        // After a rename there is nothing left to remove.
        let _ = fs::remove_file(&self.0);
    }
}
