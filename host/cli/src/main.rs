//! The command `tray`: makes a job folder from pictures and layers or from a card, runs it, shows it, takes it up, exports its
//! picture.

mod card;
mod card_file;
mod export;
mod layers;
mod layers_file;
mod make;
mod operators;
mod parts;
mod progress;
mod run;
mod status;

use anyhow::Result;
use clap::{Parser, Subcommand};
use std::process::ExitCode;
use tray_cli::exit::{self, Exit};

#[derive(Parser)]
#[command(
    name = "tray",
    version,
    about = "Lays pictures on a tray, pixel by pixel, and takes a stopped job up where it stopped",
    after_help = exit::help()
)]
struct Command {
    #[command(subcommand)]
    action: Action,
}

#[derive(Subcommand)]
enum Action {
    /// Make a job folder from a destination and layers, or from a card
    Make(make::Make),
    /// Run a job from its mark on, to the end or as far as an allowance goes
    Run(run::Run),
    /// Show how far a job is, and its number
    Status(status::Status),
    /// Write a job's picture as PNG, PFM, TIFF or raw words
    Export(export::Export),
    /// Check a card, which is a job as text, or print a job's
    #[command(subcommand, after_help = card::FORM)]
    Card(card::CardAction),
    /// List the operators: names, aliases, what they do, arguments and their defaults
    Operators(operators::Operators),
}

/// The environment is looked at before anything else, since reading a picture computes too.
fn act(command: Command) -> Result<Exit> {
    tray::environment()?;
    tray_folder::on_storage_failure("tray: the storage failed under a job's file", Exit::Storage as u8);
    match command.action {
        Action::Make(make) => make.make(),
        Action::Run(run) => run.run(),
        Action::Status(status) => status.print(),
        Action::Export(export) => export.write(),
        Action::Card(card) => card.act(),
        Action::Operators(operators) => operators.print(),
    }
}

fn main() -> ExitCode {
    exit::command("tray", act)
}
