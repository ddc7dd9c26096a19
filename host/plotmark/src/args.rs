//! The command line.

use std::ffi::{OsStr, OsString};

use dustroute::ComponentId;

/// What is asked for.
#[derive(Clone, Debug, Eq, PartialEq)]
pub enum Command {
    /// Words of each sheet.
    Words {
        /// The sheets.
        sheets: Vec<OsString>,
        /// Whether each driven input is told.
        all: bool,
    },
    /// A page.
    Page(OsString),
    /// One device, or one input of it.
    Input {
        /// The device.
        id: ComponentId,
        /// The input's port.
        port: Option<u8>,
        /// The sheet.
        sheet: OsString,
    },
    /// The report.
    Report(OsString),
    /// Refusals only.
    Check(Vec<OsString>),
    /// The sheet in its other form.
    Convert(OsString),
    /// Two sheets as one.
    Join([OsString; 2]),
    /// How it is used.
    Help,
    /// What it is.
    Version,
}

/// The name of standard input.
pub const STANDARD: &str = "-";

/// What the options say so far.
#[derive(Debug, Default)]
struct Read {
    all: bool,
    action: Option<Action>,
    names: Vec<OsString>,
}

#[derive(Debug)]
enum Action {
    Page,
    Input(ComponentId, Option<u8>),
    Report,
    Check,
    Help,
    Version,
}

/// Reads a command line without the program's name.
///
/// # Errors
/// What is wrong with it, in words.
pub fn read(words: impl IntoIterator<Item = OsString>) -> Result<Command, String> {
    let mut words = words.into_iter();
    let mut read = Read::default();
    let mut are_options = true;
    while let Some(word) = words.next() {
        match word.to_str() {
            Some("--") if are_options => are_options = false,
            Some(option) if are_options && option.starts_with("--") => {
                read.option(option, &mut words)?;
            }
            Some(option) if are_options && option.starts_with('-') && option != STANDARD => {
                return Err(format!("there is no option {option}"));
            }
            _ => read.names.push(word),
        }
    }
    read.command()
}

impl Read {
    fn option(
        &mut self,
        option: &str,
        words: &mut impl Iterator<Item = OsString>,
    ) -> Result<(), String> {
        let (name, given) = match option.split_once('=') {
            Some((name, value)) => (name, Some(OsString::from(value))),
            None => (option, None),
        };
        let action = match name {
            "--input" => {
                let asked = given.or_else(|| words.next());
                let (id, port) = input(asked.as_deref())?;
                Action::Input(id, port)
            }
            _ if given.is_some() => return Err(format!("there is no option {option}")),
            "--all" => {
                self.all = true;
                return Ok(());
            }
            "--page" => Action::Page,
            "--report" => Action::Report,
            "--check" => Action::Check,
            "--help" => Action::Help,
            "--version" => Action::Version,
            _ => return Err(format!("there is no option {option}")),
        };
        match self.action.replace(action) {
            None => Ok(()),
            Some(_) => Err(format!("{name} does not go with the option before it")),
        }
    }

    fn command(self) -> Result<Command, String> {
        let Self { all, action, names } = self;
        if all && action.is_some() {
            return Err("--all goes with words alone".to_string());
        }
        let first = names.first().and_then(|it| it.to_str());
        let command = match action {
            None if first == Some("convert") => Command::Convert(one(rest(names))?),
            None if first == Some("join") => Command::Join(two(rest(names))?),
            None => Command::Words {
                sheets: some(names),
                all,
            },
            Some(Action::Page) => Command::Page(one(names)?),
            Some(Action::Input(id, port)) => {
                let sheet = one(names)?;
                Command::Input { id, port, sheet }
            }
            Some(Action::Report) => Command::Report(one(names)?),
            Some(Action::Check) => Command::Check(some(names)),
            Some(Action::Help) => Command::Help,
            Some(Action::Version) => Command::Version,
        };
        Ok(command)
    }
}

/// The names behind the first one.
fn rest(names: Vec<OsString>) -> Vec<OsString> {
    names.into_iter().skip(1).collect()
}

/// The names, or standard input.
fn some(names: Vec<OsString>) -> Vec<OsString> {
    if names.is_empty() {
        vec![OsString::from(STANDARD)]
    } else {
        names
    }
}

fn one(names: Vec<OsString>) -> Result<OsString, String> {
    let mut names = some(names).into_iter();
    match (names.next(), names.next()) {
        (Some(name), None) => Ok(name),
        _ => Err("this takes one sheet".to_string()),
    }
}

fn two(names: Vec<OsString>) -> Result<[OsString; 2], String> {
    let names = <[OsString; 2]>::try_from(names);
    let names = names.map_err(|_| "join takes two sheets".to_string())?;
    if names.iter().all(|name| name == STANDARD) {
        return Err("only one of two sheets can be standard input".to_string());
    }
    Ok(names)
}

/// An id, or an id and a port, as in `7` and `7/1`.
fn input(asked: Option<&OsStr>) -> Result<(ComponentId, Option<u8>), String> {
    let asked = asked.and_then(OsStr::to_str);
    let asked = asked.ok_or("--input needs the id of a device")?;
    let (id, port) = match asked.split_once('/') {
        Some((id, port)) => (id, Some(port)),
        None => (asked, None),
    };
    let wrong = || format!("--input takes an id, or an id and a port as in 7/1, not {asked}");
    let id = id.parse().map(ComponentId).map_err(|_| wrong())?;
    let port = port.map(str::parse).transpose().map_err(|_| wrong())?;
    Ok((id, port))
}
