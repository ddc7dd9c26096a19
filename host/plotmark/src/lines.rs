//! On which line of a sheet a record begins. Lines are told from 1, as editors count.

use dustroute::{Form, Sheet};

/// Lines of a component and of a connection in the old form.
const COMPONENT: usize = 8;
const CONNECTION: usize = 3;

/// Where the records of a sheet begin.
#[derive(Clone, Copy, Debug, Eq, PartialEq)]
pub struct Lines {
    form: Form,
    /// Lines before the first count.
    head: usize,
    components: usize,
}

impl Lines {
    /// Of a sheet with its text.
    #[must_use]
    pub fn of(text: &[u8], sheet: &Sheet) -> Self {
        let head = match sheet.form {
            Form::Short => 2,
            Form::Old => usize::from(text.starts_with(b"rules=")),
        };
        Self {
            form: sheet.form,
            head,
            components: sheet.components.len(),
        }
    }

    /// The first line of the component at a place of the list.
    #[must_use]
    pub const fn component(&self, place: usize) -> usize {
        self.head + 2 + place * self.each(COMPONENT)
    }

    /// The first line of the connection at a place of the list.
    #[must_use]
    pub const fn connection(&self, place: usize) -> usize {
        self.component(self.components) + 1 + place * self.each(CONNECTION)
    }

    const fn each(&self, lines: usize) -> usize {
        match self.form {
            Form::Old => lines,
            Form::Short => 1,
        }
    }
}

#[cfg(test)]
mod tests {
    use super::Lines;
    use dustroute::Form;

    #[test]
    fn records_follow_their_counts() {
        let lines = |form, head| Lines {
            form,
            head,
            components: 2,
        };
        // components=, eight lines twice, connections=, three lines each.
        let old = lines(Form::Old, 0);
        assert_eq!([0, 1].map(|place| old.component(place)), [2, 10]);
        assert_eq!([0, 1].map(|place| old.connection(place)), [19, 22]);
        // sheet=2, rules=, components=, a line twice, connections=.
        let short = lines(Form::Short, 2);
        assert_eq!([0, 1].map(|place| short.component(place)), [4, 5]);
        assert_eq!([0, 1].map(|place| short.connection(place)), [7, 8]);
    }
}
