//! A file written beside the one that it replaces and renamed over it when it is whole and stored: whatever goes wrong, the
//! older file stays as it was.

use crate::beside::{folder_of, sweep, Part};
use crate::storage::sync_folder;
use std::fs::{self, Metadata, OpenOptions};
use std::io::{self, ErrorKind, Write};
use std::os::unix::fs::MetadataExt;
use std::path::{Path, PathBuf};

/// The most links from name to name that are followed, as in the system.
const LINKS: usize = 40;

/// Writes a file, whole or not at all; what a killed call leaves beside it (`.tray-..`) is removed by a later one. A link
/// stays, and what it points to is replaced. An older file hands its permissions on; a new one has those of any new file.
/// What is no regular file, such as a pipe, is written directly, and the answer is false.
pub fn replace_file(path: &Path, bytes: &[u8]) -> io::Result<bool> {
    let target = behind_links(path);
    let (older, named) = (found(fs::metadata(path))?, found(fs::symlink_metadata(&target))?);
    let replaced = match (&older, &named) {
        // A file that is open is reached under /proc by a name that is not its own.
        (Some(older), Some(named)) => older.is_file() && (older.dev(), older.ino()) == (named.dev(), named.ino()),
        (older, _) => older.is_none(),
    };
    if !replaced {
        // At its end: standard output may be a file that others write before and after.
        OpenOptions::new().append(true).open(path)?.write_all(bytes)?;
        return Ok(false);
    }
    if older.is_some() {
        // A file that may not be written may not be replaced either.
        OpenOptions::new().write(true).open(&target)?;
    }
    let folder = folder_of(&target);
    sweep(folder, &[]);
    let mut part = Part::file(folder)?;
    if let Some(older) = older {
        part.opened().set_permissions(older.permissions())?;
    }
    part.opened().write_all(bytes)?;
    part.opened().sync_all()?;
    part.becomes(&target)?;
    sync_folder(folder)?;
    Ok(true)
}

fn found(file: io::Result<Metadata>) -> io::Result<Option<Metadata>> {
    match file {
        Err(error) if error.kind() == ErrorKind::NotFound => Ok(None),
        file => file.map(Some),
    }
}

/// The name that a chain of links ends in, whether there is a file of that name or not. Those under /proc are files that a
/// process has open, and not names.
fn behind_links(path: &Path) -> PathBuf {
    let mut path = path.to_path_buf();
    for _ in 0..LINKS {
        let open = fs::canonicalize(folder_of(&path)).map_or(false, |folder| folder.starts_with("/proc"));
        match fs::read_link(&path) {
            Ok(to) if !open => path = folder_of(&path).join(to),
            _ => break,
        }
    }
    path
}
