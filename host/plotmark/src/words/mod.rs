//! What is told of a plot, from its marks.

mod connections;
mod inputs;
mod names;
mod regions;

pub use connections::{left_out, reason};
pub use inputs::{side, tone};
pub use names::{at, capital, count, named};
pub use regions::{lights, region, title};

use dustroute::RequiredInputStatus;

use crate::plot::{Input, Marked, Plot};
use crate::told::{Line, Section, Told};

/// How much is told of inputs that are driven.
#[derive(Clone, Copy, Debug, Eq, PartialEq)]
pub enum Driven {
    /// A few, or how many they are.
    Few,
    /// Each.
    All,
}

/// So many driven inputs are told each.
const FEW: usize = 4;

/// All that is told of a plot.
#[must_use]
pub fn told(name: &str, marked: &Marked, driven: Driven) -> Told {
    let mut sections = vec![inputs_section(marked, driven)];
    sections.extend(unread_section(&marked.plot));
    sections.push(regions::section(marked));
    sections.push(connections::section(&marked.plot));
    Told {
        head: head(name, marked),
        sections,
    }
}

/// The first line.
fn head(name: &str, marked: &Marked) -> Line {
    let sheet = &marked.plot.sheet;
    let blocks = count(sheet.components.len(), "block", "blocks");
    let connections = count(sheet.connections.len(), "connection", "connections");
    let how = format!("marked by {} ({}). ", sheet.rules, sheet.form);
    let how = if name.is_empty() {
        capital(&how)
    } else {
        format!("{name}: {how}")
    };
    Line::plain(how).and(format!("{blocks}, {connections}, {}.", left(&marked.plot)))
}

fn left(plot: &Plot) -> String {
    match plot.left_out.len() {
        0 => "none of them left out".to_string(),
        count => format!("{count} of them left out"),
    }
}

/// The one line that is told of a plot among others. Without a name it begins with what
/// is told.
#[must_use]
pub fn summary(name: &str, marked: &Marked) -> Line {
    let inputs = count(marked.inputs.len(), "input", "inputs");
    let line = head(name, marked).and(format!(" {inputs}"));
    verdicts(line, marked, ": ").and(".")
}

/// Goes on with how many inputs there are of each verdict.
fn verdicts(line: Line, marked: &Marked, before: &str) -> Line {
    let of = |status| {
        let each = marked.inputs.iter();
        each.filter(|it| it.status == status).count()
    };
    let (mut line, mut between) = (line, before);
    for status in RequiredInputStatus::ALL {
        if of(status) > 0 {
            let text = format!("{} {}", of(status), inputs::briefly(status));
            line = line.and(between).verdict(tone(status), text);
            between = ", ";
        }
    }
    line
}

/// What is told of some inputs alone.
#[must_use]
pub fn device(name: &str, plot: &Plot, found: &[Input]) -> Told {
    let sheet = &plot.sheet;
    let found: Vec<&Input> = found.iter().collect();
    let section = Section {
        title: "Inputs".to_string(),
        lines: inputs::lines(plot, &found),
    };
    Told {
        head: Line::plain(format!("{name}: {} ({}).", sheet.rules, sheet.form)),
        sections: vec![section],
    }
}

fn inputs_section(marked: &Marked, driven: Driven) -> Section {
    let is_driven = |it: &&Input| it.status == RequiredInputStatus::DrivenByKnownSource;
    let inputs = marked.inputs.iter();
    let (good, bad): (Vec<&Input>, Vec<&Input>) = inputs.partition(is_driven);
    let mut lines = inputs::lines(&marked.plot, &bad);
    if driven == Driven::All || good.len() <= FEW {
        lines.extend(inputs::lines(&marked.plot, &good));
    } else {
        lines.push(inputs::counted(good.len(), bad.is_empty()));
    }
    let title = match marked.inputs.len() {
        0 => "Inputs: none".to_string(),
        _ => verdicts(Line::plain("Inputs"), marked, ": ").text(),
    };
    Section { title, lines }
}

/// The devices whose facing nobody saw; nothing where there are none.
fn unread_section(plot: &Plot) -> Option<Section> {
    let each = plot.sheet.unread().map(|id| {
        let text = " is not known, so that nothing is said of its input";
        let line = Line::plain("How ").block(named(plot, id));
        line.and(format!(" at {} faces{text}", at(plot, id)))
    });
    let lines: Vec<Line> = each.collect();
    let title = "Devices whose facing was not seen".to_string();
    (!lines.is_empty()).then_some(Section { title, lines })
}
