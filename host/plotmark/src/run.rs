//! What the program does.

use std::env;
use std::ffi::{OsStr, OsString};
use std::path::Path;
use std::process::ExitCode;

use dustroute::{ComponentId, PortRef, Reason, Refusal};

use crate::args::{self, Command};
use crate::files::{Fault, Progress, called, colours, put, read};
use crate::page;
use crate::plot::{Input, Marked, Plot};
use crate::refused::{not_joined, refused};
use crate::terms;
use crate::text::{line, write};
use crate::words::{self, Driven};

const HELP: &str = include_str!("help.txt");

/// Runs the program on its own command line.
#[must_use]
pub fn main() -> ExitCode {
    let command = args::read(env::args_os().skip(1));
    let command =
        command.map_err(|wrong| Fault::Failed(format!("plotmark: {wrong} (see plotmark --help)")));
    ExitCode::from(match command {
        Ok(command) => run(command),
        Err(fault) => fault.tell(),
    })
}

/// Does what is asked for; the exit status.
fn run(command: Command) -> u8 {
    let done = match command {
        Command::Words { sheets, all } => match sheets.as_slice() {
            [one] => in_words(one, if all { Driven::All } else { Driven::Few }),
            more => return each(more, in_a_line),
        },
        Command::Check(sheets) => return each(&sheets, |_, text| checked(text)),
        Command::Page(sheet) => of_a_sheet(&sheet, |name, text| {
            Ok(page::page(base(name), &Marked::read(text)?).into_bytes())
        }),
        Command::Input { id, port, sheet } => one_device(&sheet, id, port),
        Command::Report(sheet) => of_a_sheet(&sheet, |_, text| dustroute::report(text)),
        Command::Convert(sheet) => of_a_sheet(&sheet, |_, text| dustroute::convert(text)),
        Command::Join(sheets) => join(&sheets),
        Command::Help => put(HELP.as_bytes()),
        Command::Version => put(version().as_bytes()),
    };
    match done {
        Ok(()) => 0,
        Err(fault) => fault.tell(),
    }
}

/// A name without its folder, for the title of a page.
fn base(name: &str) -> &str {
    let base = Path::new(name).file_name().and_then(OsStr::to_str);
    base.unwrap_or(name)
}

fn version() -> String {
    let own = env!("CARGO_PKG_VERSION");
    let (interface, core) = (dustroute::interface(), env!("PLOTMARK_CORE"));
    format!("plotmark {own}\ncore: interface {interface}, {core}\n")
}

/// Writes what is made of one sheet.
fn of_a_sheet(
    sheet: &OsStr,
    make: impl Fn(&str, &[u8]) -> Result<Vec<u8>, Refusal>,
) -> Result<(), Fault> {
    let text = read(sheet)?;
    let name = called(sheet);
    let made = make(&name, &text).map_err(|it| Fault::Refused(refused(&name, &text, it)));
    put(&made?)
}

fn in_words(sheet: &OsStr, driven: Driven) -> Result<(), Fault> {
    of_a_sheet(sheet, |name, text| {
        let told = words::told(name, &Marked::read(text)?, driven);
        Ok(write(&told, colours()).into_bytes())
    })
}

fn in_a_line(name: &str, text: &[u8]) -> Result<String, Refusal> {
    let marked = Marked::read(text)?;
    Ok(line(&words::summary(name, &marked), colours()))
}

fn checked(text: &[u8]) -> Result<String, Refusal> {
    Marked::read(text).map(|_| String::new())
}

/// Tells each sheet in a line; the worst exit status.
fn each(sheets: &[OsString], tell: impl Fn(&str, &[u8]) -> Result<String, Refusal>) -> u8 {
    let progress = Progress::of(sheets.len());
    let mut worst = 0;
    for (place, sheet) in (1..).zip(sheets) {
        progress.show(place);
        let told = read(sheet).and_then(|text| {
            let name = called(sheet);
            let told = tell(&name, &text);
            told.map_err(|it| Fault::Refused(refused(&name, &text, it)))
        });
        progress.hide();
        let done = told.and_then(|told| put(told.as_bytes()));
        worst = worst.max(done.map_or_else(|fault| fault.tell(), |()| 0));
    }
    worst
}

fn one_device(sheet: &OsStr, id: ComponentId, port: Option<u8>) -> Result<(), Fault> {
    let text = read(sheet)?;
    let name = called(sheet);
    let refuse = |it| Fault::Refused(refused(&name, &text, it));
    let plot = Plot::read(&text).map_err(refuse)?;
    let found = asked(&plot, id, port).map_err(refuse)?;
    if found.is_empty() {
        return Err(Fault::Refused(format!(
            "{name}: {}",
            no_input(&plot, id, port)
        )));
    }
    put(write(&words::device(&name, &plot, &found), colours()).as_bytes())
}

/// The inputs that are asked for; none where there are none.
fn asked(plot: &Plot, id: ComponentId, port: Option<u8>) -> Result<Vec<Input>, Refusal> {
    match (plot.block(id), port) {
        (None, _) => Ok(Vec::new()),
        (Some(block), None) => plot.asked(block),
        (Some(_), Some(port)) => match plot.ask(PortRef::new(id, port)) {
            Ok(found) => Ok(vec![found]),
            Err(refusal) if refusal.reason == Reason::NoVerdict => Ok(Vec::new()),
            Err(refusal) => Err(refusal),
        },
    }
}

/// What is told of a block, or a port, that no signal must reach.
fn no_input(plot: &Plot, id: ComponentId, port: Option<u8>) -> String {
    let Some(block) = plot.block(id) else {
        return format!("there is no block {}.", id.0);
    };
    let (_, name) = words::named(plot, id);
    let which = port.map_or_else(String::new, |port| format!(" at port {port}"));
    let blank = terms::blank(plot.sheet.rules, block);
    let blank = blank.map_or_else(String::new, |it| format!(": {it}"));
    format!("{name} has no input{which} that must be driven{blank}.")
}

fn join(sheets: &[OsString; 2]) -> Result<(), Fault> {
    let [first, second] = sheets;
    let texts = [read(first)?, read(second)?];
    let names = [called(first), called(second)];
    let joined = dustroute::join(&texts[0], &texts[1]);
    let joined = joined.map_err(|it| Fault::Refused(not_joined(&names, &texts, &it)));
    put(&joined?)
}
