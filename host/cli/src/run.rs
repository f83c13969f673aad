//! `tray run`: the worker.

use crate::progress;
use anyhow::{Error, Result};
use clap::{Args, ValueEnum};
use indicatif::ProgressBar;
use std::path::PathBuf;
use tray_cli::exit::{Ended, Exit};
use tray_cli::say::{complain, count, say};
use tray_folder::{Durable, Folder, Lock, TakenUp, Worker};

#[derive(Args)]
pub struct Run {
    /// The job's folder
    job: PathBuf,
    /// Stores to make at most, five a pixel; without it the job is run to its end
    #[arg(long, value_name = "STORES")]
    allowance: Option<u64>,
    /// Wait while another worker has the job
    #[arg(long)]
    wait: bool,
    /// How much a loss of power takes back: at most one layer (phase), or everything that this worker has not come to the end of (end)
    #[arg(long, value_enum, default_value = "phase")]
    durable: When,
    /// No progress bar, and no word on where the job is taken up
    #[arg(long)]
    quiet: bool,
}

/// When pictures are stored.
#[derive(Clone, Copy, ValueEnum)]
enum When {
    Phase,
    End,
}

impl From<When> for Durable {
    fn from(when: When) -> Self {
        match when {
            When::Phase => Durable::Phase,
            When::End => Durable::End,
        }
    }
}

/// The stores of one call, so that the progress bar moves.
const SLICE: u64 = 5 * 64 * 1024;

impl Run {
    pub fn run(self) -> Result<Exit> {
        let folder = Folder::open(&self.job)?;
        let lock = self.lock(&folder)?;
        let failed = format!("{}: the storage failed; the job can be taken up where it stands", self.job.display());
        tray_folder::on_storage_failure(
            &format!("tray: {failed} (no room for a page, or none to be read)"),
            Exit::Storage as u8,
        );
        let storage = |error: tray_folder::Error| match error.is_storage() {
            true => Error::new(error).context(Ended::new(Exit::Storage, &failed)),
            false => error.into(),
        };
        let mut worker = Worker::new(&folder, lock, self.durable.into()).map_err(storage)?;
        self.tell(&worker, &folder);
        let bar = progress::bar(self.quiet, worker.mark(), folder.total())?;
        let worked = self.work(&mut worker, &bar);
        progress::leave(&bar);
        let mark = worker.mark();
        let (stores, finished) = worked.and_then(|worked| worker.stop().map(|()| worked)).map_err(storage)?;
        let (job, how) = (self.job.display(), if finished { "finished" } else { "stopped" });
        say(format!("{job}: {}, {how} at {mark} of {}", count(stores, "store"), folder.total()))?;
        Ok(if finished { Exit::Done } else { Exit::Stopped })
    }

    fn lock(&self, folder: &Folder) -> Result<Lock> {
        folder.lock(self.wait).map_err(|error| match error {
            tray_folder::Error::Busy(_) => Ended::new(Exit::Busy, format!("{error} (--wait waits for its end)")).into(),
            other => other.into(),
        })
    }

    /// Says where the job is taken up, if it is not the mark.
    fn tell(&self, worker: &Worker, folder: &Folder) {
        if let (TakenUp::Checkpoint(position), false) = (worker.taken_up(), self.quiet) {
            let (job, total) = (self.job.display(), folder.total());
            complain(&format!("{job}: taken up at its checkpoint, {position} of {total}: it comes from another boot or mount, is a copy, or was touched"));
        }
    }

    /// Calls until the job is finished or the allowance used up: the stores made, and whether it is finished.
    fn work(&self, worker: &mut Worker, bar: &ProgressBar) -> tray_folder::Result<(u64, bool)> {
        let allowance = self.allowance.unwrap_or(u64::MAX);
        let mut stores = 0;
        loop {
            let progress = worker.call(SLICE.min(allowance - stores))?;
            stores += progress.stores;
            bar.set_position(worker.mark());
            if progress.finished || progress.stores == 0 || stores == allowance {
                return Ok((stores, progress.finished));
            }
        }
    }
}
