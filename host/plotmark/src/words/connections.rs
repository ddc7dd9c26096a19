//! Connections that were left out.

use dustroute::{Component, ComponentId, Facing, LeftOut, Role, Why};

use super::names::{self, named};
use crate::plot::Plot;
use crate::steps::Step;
use crate::terms;
use crate::told::{Line, Section};

/// A connection that was left out, its line in the sheet, and why.
#[must_use]
pub fn left_out(plot: &Plot, it: &LeftOut, before: &str) -> Line {
    joined(Line::plain(before), plot, it)
        .and(format!(", sheet line {}: ", plot.lines.connection(it.item)))
        .and(reason(plot, it))
}

/// Goes on as in "6 to 7 (dust)".
fn joined(line: Line, plot: &Plot, it: &LeftOut) -> Line {
    let line = names::id(line, plot, it.connection.source).and(" to ");
    let line = names::id(line, plot, it.connection.sink);
    line.and(format!(" ({})", it.connection.kind))
}

/// Why a connection was left out: the core's reason, in words with names.
#[must_use]
pub fn reason(plot: &Plot, it: &LeftOut) -> String {
    let [source, sink] = [it.connection.source, it.connection.sink];
    match it.why {
        Why::NoSource => gone(source),
        Why::NoSink => gone(sink),
        Why::Neither if source == sink => gone(source),
        Why::Neither => format!("{} and no block {}", gone(source), sink.0),
        Why::Support => "support carries no signal".to_string(),
        Why::NoStep => apart(plot, source, sink),
        Why::NoOutput => side(plot, it, true).unwrap_or_else(|| it.why.to_string()),
        Why::NoInput => side(plot, it, false).unwrap_or_else(|| it.why.to_string()),
    }
}

fn gone(id: ComponentId) -> String {
    format!("there is no block {}", id.0)
}

fn apart(plot: &Plot, source: ComponentId, sink: ComponentId) -> String {
    if source == sink {
        return format!("{} would feed itself", named(plot, source).1);
    }
    let placed = |id| format!("{} at {}", named(plot, id).1, super::at(plot, id));
    format!("{} and {} do not touch", placed(source), placed(sink))
}

/// What a block has not on the side of a step.
fn side(plot: &Plot, it: &LeftOut, is_source: bool) -> Option<String> {
    let [source, sink] = [it.connection.source, it.connection.sink].map(|id| plot.block(id));
    let step = Step::between(source?.position, sink?.position)?;
    let (block, face) = if is_source {
        (source?, step.face)
    } else {
        (sink?, terms::opposite(step.face))
    };
    let name = named(plot, block.id).1;
    let what = if is_source {
        format!("nothing comes out of {name} {}", terms::toward(face))
    } else {
        format!("nothing goes into {name} {}", terms::from(face))
    };
    Some(format!("{what}{}", there(plot, block, face)))
}

/// What is on that side instead, or why nothing is.
fn there(plot: &Plot, block: &Component, face: Facing) -> String {
    let ports = plot.ports(block).unwrap_or_default();
    let there = ports.iter().filter(|it| it.face == face);
    let there = there.filter(|it| it.role != Role::Support);
    let mut told: Vec<String> = there
        .map(|it| format!("that is {}", terms::role(it.role)))
        .collect();
    if terms::turns(block.kind) && block.facing.is_none() {
        let is_unread = plot.sheet.rules.leaves_unread(block);
        let taken = if is_unread {
            "is not known"
        } else {
            "was taken as North"
        };
        told.push(format!("its facing {taken}"));
    }
    if told.is_empty() {
        String::new()
    } else {
        format!(" ({})", told.join("; "))
    }
}

pub fn section(plot: &Plot) -> Section {
    let each = plot.left_out.iter().map(|it| {
        let line = plot.lines.connection(it.item);
        let told = joined(Line::plain(format!("sheet line {line}: ")), plot, it);
        told.and(": ")
            .and(reason(plot, it))
            .marked(format!("line{line}"))
    });
    let title = match plot.left_out.len() {
        0 => "Connections left out: none".to_string(),
        count => format!("Connections left out: {count}"),
    };
    Section {
        title,
        lines: each.collect(),
    }
}
