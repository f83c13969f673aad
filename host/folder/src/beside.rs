//! A file or a folder under construction, hidden beside the one that it becomes: `.tray-`, its maker's process, `-` and a
//! number. Its maker holds it by a lock as long as it lives; what a killed maker leaves, which nobody holds, is removed by a
//! later one.

use crate::system::try_lock;
use std::fs::{self, File, OpenOptions};
use std::io;
use std::os::unix::fs::MetadataExt;
use std::path::{Path, PathBuf};
use std::process;

/// Removed when it is dropped, unless it has got its name.
pub struct Part {
    path: PathBuf,
    file: File,
    kept: bool,
}

impl Part {
    /// A new folder in the folder `beside`.
    pub fn folder(beside: &Path) -> io::Result<Self> {
        Part::new(beside, |path| {
            fs::create_dir(path)?;
            // Another maker may have removed it meanwhile; then the next name is tried.
            File::open(path).map_err(|error| match error.kind() {
                io::ErrorKind::NotFound => io::ErrorKind::AlreadyExists.into(),
                _ => error,
            })
        })
    }

    /// A new file in the folder `beside`.
    pub fn file(beside: &Path) -> io::Result<Self> {
        Part::new(beside, |path| OpenOptions::new().read(true).write(true).create_new(true).open(path))
    }

    fn new(beside: &Path, make: impl Fn(&Path) -> io::Result<File>) -> io::Result<Self> {
        let mut number = 0;
        loop {
            let path = beside.join(format!(".tray-{}-{number}", process::id()));
            number += 1;
            let file = match make(&path) {
                Err(error) if error.kind() == io::ErrorKind::AlreadyExists => continue,
                made => made?,
            };
            // Where a folder cannot be locked (a network file system locks only what is open to be written), nobody can find
            // out that this one is left, and nobody removes it. Elsewhere another maker may have removed it before it was locked.
            if try_lock(&file, false).unwrap_or(true) && is_at(&file, &path) {
                return Ok(Part { path, file, kept: false });
            }
        }
    }

    /// Where it lies.
    pub fn path(&self) -> &Path {
        &self.path
    }

    /// The file itself, or the opened folder.
    pub fn opened(&mut self) -> &mut File {
        &mut self.file
    }

    /// Gives it its name. A file takes the place of an older one; a folder does not, unless the older one is empty.
    pub fn becomes(mut self, path: &Path) -> io::Result<()> {
        fs::rename(&self.path, path)?;
        self.kept = true;
        Ok(())
    }
}

impl Drop for Part {
    fn drop(&mut self) {
        if !self.kept && is_at(&self.file, &self.path) {
            // It is left to a later maker if this fails.
            let _ = remove(&self.path);
        }
    }
}

fn remove(path: &Path) -> io::Result<()> {
    match fs::symlink_metadata(path)?.is_dir() {
        true => fs::remove_dir_all(path),
        false => fs::remove_file(path),
    }
}

/// Whether an open file or folder still has this name.
pub fn is_at(file: &File, path: &Path) -> bool {
    match (file.metadata(), fs::symlink_metadata(path)) {
        (Ok(opened), Ok(named)) => (opened.dev(), opened.ino()) == (named.dev(), named.ino()),
        _ => false,
    }
}

/// Whether this has a name that a maker gives.
pub fn is_a_parts_name(path: &Path) -> bool {
    let number = |text: &str| !text.is_empty() && text.bytes().all(|byte| byte.is_ascii_digit());
    let name = path.file_name().and_then(|name| name.to_str()).unwrap_or("");
    let numbers = name.strip_prefix(".tray-").and_then(|rest| rest.split_once('-'));
    matches!(numbers, Some((maker, n)) if number(maker) && number(n))
}

/// Removes what killed makers have left in the folder `beside`: files of such a name, and folders that have nothing in them
/// but a job's files. What cannot be removed is left.
pub fn sweep(beside: &Path, job: &[&str]) {
    for entry in fs::read_dir(beside).into_iter().flatten().flatten() {
        if is_a_parts_name(&entry.path()) {
            let _ = remove_if_left(&entry.path(), job);
        }
    }
}

fn remove_if_left(path: &Path, job: &[&str]) -> io::Result<()> {
    let kind = fs::symlink_metadata(path)?.file_type();
    let file = match kind.is_dir() {
        true if only_a_job(path, job)? => File::open(path)?,
        false if kind.is_file() => OpenOptions::new().read(true).write(true).open(path)?,
        _ => return Ok(()),
    };
    // Since it was opened its name may have gone to another. From here on whoever has the lock is the only one to remove it.
    if try_lock(&file, false)? && is_at(&file, path) {
        remove(path)?;
    }
    Ok(())
}

fn only_a_job(path: &Path, job: &[&str]) -> io::Result<bool> {
    for entry in fs::read_dir(path)? {
        let name = entry?.file_name();
        if !job.iter().any(|file| name == *file) {
            return Ok(false);
        }
    }
    Ok(true)
}

/// The folder that a name lies in.
pub fn folder_of(path: &Path) -> &Path {
    path.parent().filter(|folder| *folder != Path::new("")).unwrap_or_else(|| Path::new("."))
}
