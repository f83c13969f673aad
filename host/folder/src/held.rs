//! Where a job's memory may be trusted as it stands. Mapped files are what their workers left as long as the kernel lives
//! that holds their pages, and as long as they are those very files. The file `held` names both: the boot; of what workers
//! write the device, number, time of birth and mount of each file; and of the job's other files the time of their last
//! change. After a loss of power the boot is another one, after a drive was pulled the mount, in a copy or a backup the
//! files; and where a backup was written over a job, its inputs are changed.

use crate::error::{At, Result};
use crate::system;
use std::fs::{self, File};
use std::os::unix::fs::MetadataExt;
use std::path::Path;
use std::time::UNIX_EPOCH;

pub const NAME: &str = "held";

/// The kernel makes it anew at each start.
const BOOT: &str = "/proc/sys/kernel/random/boot_id";

/// Stands where the kernel does not tell its boot or a mount's own number, and nothing is to be trusted.
const UNKNOWN: &str = "?";

/// What `held` says where the memory is now.
pub fn here(folder: &Path, written: &[&str], read: &[&str]) -> Result<String> {
    let boot = fs::read_to_string(BOOT).ok().filter(|boot| !boot.trim().is_empty()).unwrap_or_else(|| UNKNOWN.into());
    let mut text = format!("tray-held-1\nboot {}\n", boot.trim());
    for name in written.iter().chain(read) {
        let path = folder.join(name);
        let file = File::open(&path).at(&path)?;
        let data = file.metadata().at(&path)?;
        text += &format!("{name} {} {}", data.dev(), data.ino());
        text += &match written.contains(name) {
            true => {
                let born = data.created().ok().and_then(|time| time.duration_since(UNIX_EPOCH).ok());
                let mount = system::mount(&file).map_or(UNKNOWN.into(), |mount| mount.to_string());
                format!(" born {} mount {mount}\n", born.unwrap_or_default().as_nanos())
            }
            false => format!(" changed {}.{:09}\n", data.ctime(), data.ctime_nsec()),
        };
    }
    Ok(text)
}

/// Whether the folder's memory, which is as `here` says, is what its last worker left.
pub fn trusted(folder: &Path, here: &str) -> bool {
    !here.contains(UNKNOWN) && fs::read_to_string(folder.join(NAME)).map_or(false, |held| held == here)
}
