//! What a job is made of, and where each part was written, which a refusal says in front.

use anyhow::{Error, Result};
use std::path::Path;
use tray::{Fault, Inputs, Refusal, Stack};
use tray_cli::picture::Picture;
use tray_folder::Folder;

pub struct Parts {
    pub dst: Picture,
    /// The file or the job that the destination comes from.
    pub tray: String,
    pub stack: Stack,
    /// For people, a line for each layer.
    pub names: Vec<String>,
    /// Where each layer was written.
    pub places: Vec<String>,
    pub samples: Vec<u32>,
}

impl Parts {
    pub fn make(&self, job: &Path) -> Result<()> {
        let Stack { table, args } = &self.stack;
        let inputs = Inputs {
            width: self.dst.width as i64,
            height: self.dst.height as i64,
            channels: self.dst.channels as i64,
            dst: &self.dst.words,
            layers: self.stack.layers(),
            table,
            args,
            samples: &self.samples,
        };
        Folder::create(job, &inputs, &self.names).map(drop).map_err(|error| self.placed(error))
    }

    /// A refusal with the place that it came from in front.
    fn placed(&self, error: tray_folder::Error) -> Error {
        let refused = match error {
            tray_folder::Error::Refused(_, refused) => refused,
            other => return other.into(),
        };
        let place = match refused {
            tray::Error::Refused(Refusal { fault, layer }) if fault.has_layer() => self.places.get(layer as usize),
            // The first of the layers that are too many.
            tray::Error::Refused(Refusal { fault: Fault::Stack, .. }) => self.places.get(tray::LAYERS),
            tray::Error::Refused(Refusal { fault: Fault::Tray, .. }) => Some(&self.tray),
            _ => None,
        };
        match place {
            Some(place) => Error::new(refused).context(place.clone()),
            None => refused.into(),
        }
    }
}
