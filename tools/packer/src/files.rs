//! A new file put in place, whole or not at all.

use std::ffi::OsString;
use std::fs::{self, OpenOptions};
use std::io::{self, Write};
use std::path::{Path, PathBuf};
use std::process;

/// A slip such as `tools/book pack plant.txt plant.txt` would cost the text with its comments.
pub fn check_apart(from: &Path, to: &Path) -> io::Result<()> {
    match (fs::canonicalize(from), fs::canonicalize(to)) {
        (Ok(from), Ok(to)) if from == to => Err(io::Error::other("this is the file that was read")),
        _ => Ok(()),
    }
}

/// Puts a file in place, or puts another in its place. The content is written under a temporary
/// name first, so that a failure leaves what was there, never half a file.
pub fn replace(path: &Path, content: &[u8]) -> io::Result<()> {
    // Renaming onto a device or a link would put a file where the device or the link was.
    if fs::symlink_metadata(path).is_ok_and(|found| !found.is_file()) {
        return Err(io::Error::other("there is something that is no plain file"));
    }
    let temporary = temporary_beside(path)?;
    let mut options = OpenOptions::new();
    let mut file = options.write(true).create_new(true).open(&temporary)?;
    let done = file
        .write_all(content)
        .and_then(|()| file.sync_all())
        .and_then(|()| fs::rename(&temporary, path));
    if done.is_err() {
        // The first failure is the one to tell.
        let _ = fs::remove_file(&temporary);
    }
    done
}

/// Gives a name in the same folder: only within a file system is a renaming whole or not at all.
fn temporary_beside(path: &Path) -> io::Result<PathBuf> {
    let no_name = || io::Error::other("the path names no file");
    let mut name = OsString::from(".");
    name.push(path.file_name().ok_or_else(no_name)?);
    name.push(format!(".{}", process::id()));
    Ok(path.with_file_name(name))
}
