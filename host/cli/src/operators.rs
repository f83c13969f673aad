//! `tray operators`: what the crate's table knows of the library's operators, for a person who writes layers.

use anyhow::{Context, Result};
use clap::Args;
use std::fmt::Write as _;
use tray::Operator;
use tray_cli::exit::Exit;
use tray_cli::say::say;

#[derive(Args)]
pub struct Operators {
    /// Only these, by any of their names; without one all are listed
    #[arg(value_name = "NAME")]
    names: Vec<String>,
}

/// What is to be known to read the list of all.
const LEGEND: &str = "\
S and D are a colour of the source and of the destination; how alpha counts is each operator's own.
A name may be written with capitals, - and _. An argument that is missing or not finite counts as its default;
mathematics takes one that is not finite as it is.
";

/// The column in which the second and further lines of an operator begin.
const INDENT: usize = 20;

impl Operators {
    pub fn print(self) -> Result<Exit> {
        let text = match &self.names[..] {
            [] => Operator::ALL.into_iter().map(entry).collect::<String>() + "\n" + LEGEND,
            names => names.iter().map(|name| named(name)).collect::<Result<String>>()?,
        };
        say(text.trim_end_matches('\n'))?;
        Ok(Exit::Done)
    }
}

fn named(name: &str) -> Result<String> {
    let operator: Operator = name.parse().with_context(|| name.to_string())?;
    Ok(entry(operator))
}

/// An operator's lines: number, name and meaning; its aliases; its arguments.
fn entry(operator: Operator) -> String {
    let mut lines = vec![operator.meaning().to_string()];
    if !operator.carried() {
        lines[0] += " (not carried: a layer with it is refused)";
    }
    if !operator.aliases().is_empty() {
        lines.push(format!("also {}", operator.aliases().join(", ")));
    }
    let arguments = operator.arguments();
    if !arguments.is_empty() {
        let names: Vec<&str> = arguments.iter().map(|argument| argument.name).collect();
        lines.push(format!("args={}", names.join(",").to_uppercase()));
        let argument =
            |a: &tray::Argument| format!("  {}: {}; by default {}", a.name.to_uppercase(), a.meaning, a.default);
        lines.extend(arguments.iter().map(argument));
    }
    let mut text = format!("{:>2} {:<width$} {}\n", operator.number(), operator, lines[0], width = INDENT - 4);
    for line in &lines[1..] {
        writeln!(text, "{:INDENT$}{line}", "").expect("a text takes every line");
    }
    text
}

#[cfg(test)]
mod tests {
    use super::*;

    #[test]
    fn entries() {
        let blend = "\
45 blend            the weighted sum of both
                    also average
                    args=SOURCE,DESTINATION
                      SOURCE: percent of the source; by default 50
                      DESTINATION: percent of the destination; by default 100 less the first argument
";
        assert_eq!(named("Average").unwrap(), blend);
        assert_eq!(named("xor").unwrap(), " 4 xor              each of the two where the other is not\n");
        assert!(named("blur").unwrap().contains("(not carried"));
        let error = named("shiny").unwrap_err();
        assert_eq!(format!("{error:#}"), "shiny: refused: 3 OPERATOR: no such operator");
    }

    /// Every name and alias is there, and no line is wider than a terminal's 120 columns.
    #[test]
    fn the_whole_list() {
        let text: String = Operator::ALL.into_iter().map(entry).collect();
        for operator in Operator::ALL {
            assert!(text.contains(&format!("{:>2} {operator} ", operator.number())), "{operator}");
            assert!(operator.aliases().iter().all(|alias| text.contains(alias)), "{operator}");
        }
        assert!(text.lines().chain(LEGEND.lines()).all(|line| line.chars().count() <= 120));
    }
}
