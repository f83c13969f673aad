//! How a command ends: the exit code that a script reads, and the one line that a person reads.

use crate::say::{complain, heard};
use anyhow::{Error, Result};
use clap::Parser;
use std::fmt;
use std::process::ExitCode;
use tray::{CardFault, Fault, NoCard, Refusal};

/// The exit codes.
#[derive(Clone, Copy, Debug, PartialEq, Eq)]
pub enum Exit {
    Done = 0,
    Other = 1,
    Words = 2,
    Stopped = 3,
    Refused = 4,
    Busy = 5,
    Storage = 6,
}

impl Exit {
    pub const ALL: [Exit; 7] =
        [Exit::Done, Exit::Other, Exit::Words, Exit::Stopped, Exit::Refused, Exit::Busy, Exit::Storage];

    pub fn meaning(self) -> &'static str {
        match self {
            Exit::Done => "done; after `run`: the job is finished",
            Exit::Other => "another error",
            Exit::Words => "wrong words on the command line",
            Exit::Stopped => "`run` has used up its allowance before the job's end",
            Exit::Refused => "the library refused",
            Exit::Busy => "another worker has the job",
            Exit::Storage => "the storage failed while the job ran; the job can be taken up",
        }
    }

    /// The code of an error: an [`Ended`] anywhere in it has its own, and the library's refusals have one.
    pub fn of(error: &Error) -> Exit {
        let refused = error.is::<Fault>()
            || error.is::<Refusal>()
            || error.is::<CardFault>()
            || matches!(error.downcast_ref(), Some(NoCard::Form(_)))
            || matches!(error.downcast_ref(), Some(tray::Error::<Fault>::Refused(_)))
            || matches!(error.downcast_ref(), Some(tray::Error::<Refusal>::Refused(_)));
        match (error.downcast_ref::<Ended>(), error.downcast_ref()) {
            _ if refused => Exit::Refused,
            (Some(ended), _) => ended.exit,
            (None, Some(tray_folder::Error::Busy(_))) => Exit::Busy,
            (None, Some(tray_folder::Error::Refused(_, tray::Error::Refused(_)))) => Exit::Refused,
            (None, Some(tray_folder::Error::AnothersMark { .. })) => Exit::Refused,
            _ => Exit::Other,
        }
    }
}

/// The exit codes as the help shows them.
pub fn help() -> String {
    let line = |exit: &Exit| format!("\n  {}  {}", *exit as u8, exit.meaning());
    "Exit codes:".to_string() + &Exit::ALL.iter().map(line).collect::<String>()
}

/// An error that has an exit code of its own. As the context of another error it gives that one its code.
#[derive(Debug)]
pub struct Ended {
    exit: Exit,
    why: String,
}

impl Ended {
    pub fn new(exit: Exit, why: impl Into<String>) -> Self {
        Ended { exit, why: why.into() }
    }
}

impl fmt::Display for Ended {
    fn fmt(&self, f: &mut fmt::Formatter) -> fmt::Result {
        f.write_str(&self.why)
    }
}

impl std::error::Error for Ended {}

/// A command from its words to its exit code. Its error is one line after its name.
pub fn command<P: Parser>(name: &str, act: impl FnOnce(P) -> Result<Exit>) -> ExitCode {
    let ended = match P::try_parse() {
        Ok(words) => act(words),
        Err(help) if !help.use_stderr() => heard(help.print()).map(|()| Exit::Done),
        Err(wrong) => {
            let _ = wrong.print();
            Ok(Exit::Words)
        }
    };
    let exit = ended.unwrap_or_else(|error| {
        complain(&format!("{name}: {error:#}"));
        Exit::of(&error)
    });
    ExitCode::from(exit as u8)
}

#[cfg(test)]
mod tests {
    use super::*;
    use anyhow::Context;

    #[test]
    fn codes_of_errors() {
        let refused: Result<(), _> = Err(tray::Error::Refused(Refusal { fault: Fault::Curve, layer: 1 }));
        let refused = refused.context("layers.txt line 2").context(Ended::new(Exit::Words, "words"));
        let environment: tray::Error<Fault> = tray::Environment::FlushesSubnormals.into();
        let busy = Error::new(Ended::new(Exit::Busy, "busy")).context("job");
        assert_eq!(Exit::of(&refused.unwrap_err()), Exit::Refused);
        assert_eq!(Exit::of(&Error::new(Fault::Operator).context("shiny")), Exit::Refused);
        assert_eq!(Exit::of(&Error::new(CardFault { line: 3 }).context("job.card")), Exit::Refused);
        let no_card = NoCard::Window { layer: 0, window: tray::Window { width: 1, ..tray::Window::FULL } };
        assert_eq!(Exit::of(&Error::new(no_card).context("job")), Exit::Other);
        assert_eq!(Exit::of(&Error::new(NoCard::from(CardFault { line: 3 }))), Exit::Refused);
        assert_eq!(Exit::of(&environment.into()), Exit::Other);
        assert_eq!(Exit::of(&busy), Exit::Busy);
        assert_eq!(Exit::of(&tray_folder::Error::Busy("job".into()).into()), Exit::Busy);
        let mark = tray::Error::Refused(Refusal { fault: Fault::Mark, layer: 0 });
        assert_eq!(Exit::of(&tray_folder::Error::Refused("job".into(), mark).into()), Exit::Refused);
        let (mark, job) = (tray::JobNumber(1), tray::JobNumber(2));
        let anothers = tray_folder::Error::AnothersMark { folder: "job".into(), mark, job };
        assert_eq!(Exit::of(&anothers.into()), Exit::Refused);
        assert_eq!(Exit::of(&anyhow::anyhow!("else")), Exit::Other);
    }

    #[test]
    fn codes_are_the_documented_ones() {
        assert_eq!(Exit::ALL.map(|exit| exit as u8), [0, 1, 2, 3, 4, 5, 6]);
    }
}
