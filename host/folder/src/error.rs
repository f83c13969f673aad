//! Why a job folder could not be made, read or worked on.

use std::fmt;
use std::io;
use std::path::{Path, PathBuf};
use tray::{Fault, JobNumber};

/// The result of this crate's calls.
pub type Result<T> = std::result::Result<T, Error>;

/// One line, which begins with the file or the folder that is concerned.
#[derive(Debug)]
pub enum Error {
    /// The system refused something.
    System(PathBuf, io::Error),
    /// A file or the folder is not what it should be; the text says how.
    Wrong(PathBuf, String),
    /// Another worker has the job.
    Busy(PathBuf),
    /// The library refused the job, or was not called because of the thread's floating-point environment.
    Refused(PathBuf, tray::Error<tray::Refusal>),
    /// The mark in the folder is another job's, which the library refuses as [`Fault::JobNumber`].
    AnothersMark {
        /// The folder.
        folder: PathBuf,
        /// The number in the mark.
        mark: JobNumber,
        /// The folder's own.
        job: JobNumber,
    },
}

/// No room, no quota, or the device itself: `ENOSPC`, `EDQUOT`, `EIO`.
const STORAGE: [i32; 3] = [28, 122, 5];

impl Error {
    /// Whether the storage failed; the job can be taken up when it serves again.
    pub fn is_storage(&self) -> bool {
        matches!(self, Error::System(_, error) if error.raw_os_error().map_or(false, |code| STORAGE.contains(&code)))
    }

    pub(crate) fn wrong<T>(path: &Path, what: impl Into<String>) -> Result<T> {
        Err(Error::Wrong(path.to_path_buf(), what.into()))
    }
}

impl fmt::Display for Error {
    fn fmt(&self, f: &mut fmt::Formatter) -> fmt::Result {
        match self {
            Error::System(path, error) => write!(f, "{}: {error}", path.display()),
            Error::Wrong(path, what) => write!(f, "{}: {what}", path.display()),
            Error::Busy(path) => write!(f, "{}: another worker has this job", path.display()),
            Error::Refused(path, error) => write!(f, "{}: {error}", path.display()),
            Error::AnothersMark { folder, mark, job } => {
                let (folder, fault) = (folder.display(), Fault::JobNumber);
                write!(f, "{folder}: refused: {} {}: the mark is another job's: ", fault.number(), fault.word())?;
                write!(f, "it has job number {mark}, and this job's is {job}; ")?;
                f.write_str("bring its own mark back, or make the job anew")
            }
        }
    }
}

impl std::error::Error for Error {}

/// Names the file that the system's error is about.
pub(crate) trait At<T> {
    fn at(self, path: &Path) -> Result<T>;
}

impl<T> At<T> for io::Result<T> {
    fn at(self, path: &Path) -> Result<T> {
        self.map_err(|error| Error::System(path.to_path_buf(), error))
    }
}
