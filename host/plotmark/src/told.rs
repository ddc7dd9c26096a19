//! What is told of a plot: lines of text in which blocks and verdicts are marked, so
//! that a terminal can colour them and a page can link them.

use dustroute::ComponentId;

/// How a piece of text is meant.
#[derive(Clone, Copy, Debug, Eq, PartialEq)]
pub enum Tone {
    /// As it should be.
    Good,
    /// Something is still to come.
    Waits,
    /// Something is wrong.
    Bad,
}

/// A piece of a line.
#[derive(Clone, Debug, Eq, PartialEq)]
pub enum Part {
    /// Text as it is.
    Plain(String),
    /// A block's name.
    Block(ComponentId, String),
    /// A verdict.
    Verdict(Tone, String),
}

/// A line, and what belongs under it.
#[derive(Clone, Debug, Default, Eq, PartialEq)]
pub struct Line {
    /// Its pieces.
    pub parts: Vec<Part>,
    /// Lines that belong under it.
    pub under: Vec<Self>,
    /// A name by which a page can link to it.
    pub mark: Option<String>,
}

/// Lines under a title.
#[derive(Clone, Debug, Default, Eq, PartialEq)]
pub struct Section {
    /// What it is about.
    pub title: String,
    /// Its lines.
    pub lines: Vec<Line>,
}

/// All that is told of a plot.
#[derive(Clone, Debug, Default, Eq, PartialEq)]
pub struct Told {
    /// The first line.
    pub head: Line,
    /// The rest.
    pub sections: Vec<Section>,
}

impl Line {
    /// A line of plain text.
    #[must_use]
    pub fn plain(text: impl Into<String>) -> Self {
        Self::default().and(text)
    }

    /// Goes on with plain text.
    #[must_use]
    pub fn and(mut self, text: impl Into<String>) -> Self {
        self.parts.push(Part::Plain(text.into()));
        self
    }

    /// Goes on with a block.
    #[must_use]
    pub fn block(mut self, (id, name): (ComponentId, String)) -> Self {
        self.parts.push(Part::Block(id, name));
        self
    }

    /// Goes on with a verdict.
    #[must_use]
    pub fn verdict(mut self, tone: Tone, text: impl Into<String>) -> Self {
        self.parts.push(Part::Verdict(tone, text.into()));
        self
    }

    /// Goes on with several blocks, and words between them.
    #[must_use]
    pub fn blocks(
        mut self,
        blocks: impl Iterator<Item = (ComponentId, String)>,
        between: &str,
    ) -> Self {
        for (place, block) in blocks.enumerate() {
            if place > 0 {
                self = self.and(between);
            }
            self = self.block(block);
        }
        self
    }

    /// With these lines under it.
    #[must_use]
    pub fn over(mut self, under: Vec<Self>) -> Self {
        self.under = under;
        self
    }

    /// With a name.
    #[must_use]
    pub fn marked(mut self, mark: String) -> Self {
        self.mark = Some(mark);
        self
    }

    /// The text alone, without what is under it.
    #[must_use]
    pub fn text(&self) -> String {
        let each = self.parts.iter();
        let each = each.map(|part| match part {
            Part::Plain(text) | Part::Block(_, text) | Part::Verdict(_, text) => text.as_str(),
        });
        each.collect()
    }
}
