//! The page: one HTML file that needs nothing else, and no script to be read.

mod arrows;
mod axes;
mod block;
mod grid;
mod layers;
mod legend;
mod links;
mod lost;
mod shapes;
mod strip;
mod stubs;
mod telling;

use crate::html::Html;
use crate::plot::Marked;
use crate::told::Line;
use crate::words::{self, Driven};

const STYLE: &str = include_str!("style.css");
const SCRIPT: &str = include_str!("script.js");

/// What is proved, and what is not.
const PROVED: &str = "Proved, for every plot: which connections are kept, and why the others are not; nets, \
fragments and regions, and that they light in the order of their numbers; what is driven and what would be; the \
verdict of each input, what feeds it and where an input could be put; that the way shown from a source is as short \
as any; and which regions have a ring.";
const WORDED: &str = "Not proved, but held to the proved answers by tests: the picture, the words, the sides that are \
named and the numbers of lines. They are the work of plotmark.";

/// The page of a plot.
#[must_use]
pub fn page(name: &str, marked: &Marked) -> String {
    let mut html = Html::page();
    html.within("html", &[("lang", &"en")], |html| {
        html.within("head", &[], |html| {
            html.empty("meta", &[("charset", &"utf-8")]);
            let width = "width=device-width, initial-scale=1";
            html.empty("meta", &[("name", &"viewport"), ("content", &width)]);
            html.saying("title", &[], &format!("{name}: plotmark"));
            html.own("style", STYLE);
        });
        html.line();
        html.within("body", &[], |html| {
            body(html, name, marked);
            html.own("script", SCRIPT);
        });
    });
    html.line();
    html.finish()
}

fn body(html: &mut Html, name: &str, marked: &Marked) {
    let told = words::told(name, marked, Driven::All);
    html.within("header", &[], |html| {
        html.saying("h1", &[], name);
        paragraph(html, &words::summary("", marked));
    });
    html.line();
    html.within("main", &[], |html| {
        strip::draw(html, marked);
        let links = links::links(&marked.plot);
        for layer in layers::layers(&marked.plot.sheet.components) {
            grid::draw(html, marked, &links, &layer);
        }
        // The strip has the regions.
        let sections = told.sections.iter();
        for section in sections.filter(|it| it.title != words::title(marked)) {
            telling::section(html, section);
        }
        legend::draw(html);
    });
    html.line();
    html.within("footer", &[], |html| {
        html.saying("p", &[], PROVED);
        html.saying("p", &[], WORDED);
    });
    html.line();
}

fn paragraph(html: &mut Html, line: &Line) {
    html.within("p", &[], |html| telling::parts(html, line));
}
