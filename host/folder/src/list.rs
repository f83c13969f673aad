//! A job's lists as mapped files.

use crate::error::{At, Error, Result};
use crate::system::{Element, Mapping};
use std::fs::{File, OpenOptions};
use std::marker::PhantomData;
use std::path::{Path, PathBuf};

/// No system that this runs on has smaller pages.
const PAGE: usize = 4096;

/// A list of a job, mapped from its file. An empty file is not mapped, since it cannot be.
pub struct List<T> {
    mapping: Option<Mapping>,
    path: PathBuf,
    elements: PhantomData<T>,
}

impl<T: Element> List<T> {
    /// A list of `length` elements, to read.
    pub(crate) fn read(path: &Path, length: usize) -> Result<Self> {
        Self::map(File::open(path).at(path)?, path, length, length, false)
    }

    /// A list of `length` elements, whose changes other processes see and that outlive this one.
    pub(crate) fn write(path: &Path, length: usize) -> Result<Self> {
        Self::write_past(path, length, length)
    }

    /// The same of a file that has only the first `kept` of the elements, one at least; all must lie in one page. Those past the
    /// file's end are 0 where it is mapped, and what is stored in them goes neither to the file nor to the storage (mmap(2)). So an
    /// old mark, which is the position alone, is lent as two numbers: the second is 0, no call writes it, and the file keeps its
    /// length. It lies at the file's beginning and not at a page's end. Where a file system did not keep to this, the second number
    /// would not be 0, and the mark would be refused as another job's.
    pub(crate) fn write_past(path: &Path, kept: usize, length: usize) -> Result<Self> {
        Self::map(OpenOptions::new().read(true).write(true).open(path).at(path)?, path, kept, length, true)
    }

    fn map(file: File, path: &Path, kept: usize, length: usize, writable: bool) -> Result<Self> {
        let size = std::mem::size_of::<T>();
        assert!(kept == length || (0 < kept && kept < length && length * size <= PAGE));
        let bytes = file.metadata().at(path)?.len();
        let wanted = kept as u128 * size as u128;
        if bytes as u128 != wanted {
            return Error::wrong(path, format!("has {bytes} bytes, not {wanted}"));
        }
        let mapping = match length * size {
            0 => None,
            mapped => Some(Mapping::new(&file, mapped, writable).at(path)?),
        };
        Ok(List { mapping, path: path.to_path_buf(), elements: PhantomData })
    }

    /// The elements.
    pub fn list(&self) -> &[T] {
        self.mapping.as_ref().map_or(&[], Mapping::list)
    }

    /// The list's bytes, as they stand in the file.
    pub(crate) fn bytes(&self) -> &[u8] {
        self.mapping.as_ref().map_or(&[], Mapping::list)
    }

    /// The elements of a list that was mapped to be written.
    pub(crate) fn list_mut(&mut self) -> &mut [T] {
        self.mapping.as_mut().map_or(&mut [], Mapping::list_mut)
    }

    /// Waits until the storage has it.
    pub(crate) fn sync(&self) -> Result<()> {
        self.mapping.as_ref().map_or(Ok(()), Mapping::sync).at(&self.path)
    }
}
