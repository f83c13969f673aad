//! A job kept in a folder, as the command `tray` keeps it: when its workers are killed, its power is lost, its disk is full or
//! it is copied, nothing but the right picture is called finished. host/README.md says what is not covered.
//!
//! A worker ([`Worker`]) maps the work buffers and the mark into its memory, so that a kill loses nothing: the next worker
//! of the same boot goes on at the mark. A folder has a job number of its own ([`Folder::number`]), which each call carries: the
//! mark of another job is refused. A loss of power loses what was not yet stored, in any order; so before a phase
//! writes over the picture beneath the one before it, the picture that is whole is stored, and then, in a file of its own,
//! the position and a digest of the pictures that it rests on: the checkpoint ([`Durable`] says how often). In another
//! boot, on another mount or in a copy of the folder the mapped mark counts for nothing: the job is taken up at the
//! checkpoint if the digest fits what the files hold, and otherwise at its beginning.
//!
//! For Linux: it asks the kernel for the boot. No dependencies besides the crate `tray`; all unsafe code in src/system.rs.
#![deny(missing_docs)]

#[cfg(not(all(target_os = "linux", target_endian = "little", any(target_arch = "x86_64", target_arch = "aarch64"))))]
compile_error!("src/system.rs has the numbers of Linux on x86-64 and aarch64, and lists are kept low byte first");

mod beside;
mod checkpoint;
mod description;
mod digest;
mod error;
mod folder;
mod held;
mod list;
mod replace;
mod storage;
mod system;
mod worker;

pub use error::{Error, Result};
pub use folder::{Folder, Lock};
pub use list::List;
pub use replace::replace_file;
pub use system::on_storage_failure;
pub use worker::{Durable, TakenUp, Worker};
