//! Files that the storage has before anything rests on them.

use crate::beside::folder_of;
use std::fs::{self, File};
use std::io::{self, Write};
use std::path::Path;

/// A new file, stored before this returns.
pub fn write(path: &Path, bytes: &[u8]) -> io::Result<()> {
    let mut file = File::create(path)?;
    file.write_all(bytes)?;
    file.sync_all()
}

/// Waits until the storage has a folder's names.
pub fn sync_folder(path: &Path) -> io::Result<()> {
    File::open(path)?.sync_all()
}

/// A folder, and those above it that are not there yet, with their names stored.
pub fn make_folders(path: &Path) -> io::Result<()> {
    let missing = |folder: &&Path| !folder.as_os_str().is_empty() && !folder.exists();
    let new: Vec<&Path> = path.ancestors().take_while(missing).collect();
    fs::create_dir_all(path)?;
    new.into_iter().try_for_each(|folder| sync_folder(folder_of(folder)))
}

/// Puts a file in place of another: whenever the power goes, the storage has the old one or the new one, whole; when this
/// returns, the new one. The caller holds the job's lock, so that nobody else has the name in between.
pub fn replace(folder: &Path, name: &str, text: &str) -> io::Result<()> {
    let new = folder.join(format!("{name}.new"));
    write(&new, text.as_bytes())?;
    fs::rename(&new, folder.join(name))?;
    sync_folder(folder)
}
