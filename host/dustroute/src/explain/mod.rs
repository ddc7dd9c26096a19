//! Refusals in words that a person can act on. The library tells a number and a
//! place; what stands at that place is read again here, for the words alone.

mod line;
mod lists;
mod shape;

use crate::{Component, Connection, List, Place, PortConnection, Position, Reason, Refusal, Scene};
use lists::Lists;
use shape::Shape;

/// What a call was handed when it refused.
#[derive(Clone, Copy, Debug)]
pub enum Given<'a> {
    /// A sheet, to [`read_sheet`](crate::read_sheet), [`report`](crate::report()) or
    /// [`convert`](crate::convert).
    Sheet(&'a [u8]),
    /// Blocks and grouping connections. Where a call takes no frontiers there are none.
    Lists {
        /// The blocks.
        components: &'a [Component],
        /// The grouping connections.
        connections: &'a [Connection],
        /// The frontiers.
        frontiers: &'a [Position],
    },
    /// Blocks and port connections.
    Ports {
        /// The blocks.
        components: &'a [Component],
        /// The port connections.
        connections: &'a [PortConnection],
        /// The frontiers.
        frontiers: &'a [Position],
    },
}

impl<'a> From<&'a [u8]> for Given<'a> {
    fn from(text: &'a [u8]) -> Self {
        Self::Sheet(text)
    }
}

impl<'a> From<&'a Vec<u8>> for Given<'a> {
    fn from(text: &'a Vec<u8>) -> Self {
        Self::Sheet(text)
    }
}

impl<'a> From<&'a Scene> for Given<'a> {
    fn from(scene: &'a Scene) -> Self {
        Self::Lists {
            components: &scene.components,
            connections: &scene.connections,
            frontiers: &scene.frontiers,
        }
    }
}

impl Refusal {
    /// What is wrong, where, and what to do about it, as one sentence without an end.
    ///
    /// `given` is what the call was handed that refused: a sheet's text, a
    /// [`Scene`], or lists. Lines and records are counted from 1, as an editor does;
    /// fields, ids and the ends of connections are told as they were given.
    ///
    /// ```
    /// use dustroute::read_sheet;
    ///
    /// let told = |text: &[u8]| read_sheet(text).map_err(|refusal| refusal.explain(text));
    /// let told = |text: &[u8]| told(text).err().unwrap_or_default();
    ///
    /// assert_eq!(told(b""), "the sheet is empty");
    /// assert_eq!(
    ///     told(b"\xef\xbb\xbfcomponents=0\nconnections=0\nfrontiers=0\n"),
    ///     "line 1: the file begins with a byte order mark; save it as UTF-8 without one"
    /// );
    /// assert_eq!(
    ///     told(b"components=1\nid=07\n"),
    ///     "line 2 (`id=07`): the number has a leading zero"
    /// );
    /// assert_eq!(
    ///     told(b"sheet=2\nrules=3\ncomponents=1\nc=7,0,64,0,1,9,0,0\nconnections=0\nfrontiers=0\n"),
    ///     "component number 1 (id 7, line 4): its facing, 9, is not within 0 to 6"
    /// );
    /// ```
    #[must_use]
    pub fn explain<'a>(&self, given: impl Into<Given<'a>>) -> String {
        let words = match given.into() {
            Given::Sheet(text) => self.of_text(text),
            Given::Lists {
                components,
                connections,
                frontiers,
            } => self.of_lists(&Lists::grouping(components, connections, frontiers)),
            Given::Ports {
                components,
                connections,
                frontiers,
            } => self.of_lists(&Lists::ports(components, connections, frontiers)),
        };
        words.unwrap_or_else(|| self.in_general())
    }

    /// Where the place is a line there must be words of it.
    fn of_text(&self, text: &[u8]) -> Option<String> {
        let shape = Shape::of(text);
        match self.place {
            Some(Place {
                list: List::Lines,
                item,
            }) => line::told(self.reason, &shape, item),
            _ => self.of_lists(&Lists::sheet(&shape)),
        }
    }

    fn of_lists(&self, lists: &Lists) -> Option<String> {
        let Place { list, item } = self.place?;
        lists.told(self.reason, list, item)
    }

    /// Words that need nothing of what was given.
    fn in_general(&self) -> String {
        let said = match self.reason {
            Reason::UnknownRules => "the rules that are known are 1, 2 and 3",
            Reason::NoVerdict => {
                "the port asked for is no required input: there is no such block, or it has no input there"
            }
            Reason::NotDriven => "the input asked for is not driven, so no way leads to it",
            Reason::Unreadable => {
                "the library that is linked is not the one of this crate's version, so nothing was marked"
            }
            _ => return self.to_string(),
        };
        said.to_string()
    }
}

/// A part of what was given, short and on one line.
fn quoted(bytes: &[u8]) -> String {
    const MOST: usize = 40;
    if bytes.is_empty() {
        return "empty".to_string();
    }
    let text = String::from_utf8_lossy(bytes);
    let shown: String = text
        .chars()
        .take(MOST)
        .flat_map(char::escape_debug)
        .collect();
    let rest = if text.chars().nth(MOST).is_some() {
        "..."
    } else {
        ""
    };
    format!("`{shown}{rest}`")
}
