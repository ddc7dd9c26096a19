//! Answers counted by their number.

/// The highest number that a list's entry can give.
pub const UNKNOWN_RULES: usize = 11;

/// How often each number came up, 0 for acceptance.
pub trait Counted {
    /// The highest number that can come up where the rules are known.
    const LAST: usize;

    fn count_of(&self, number: usize) -> u64;

    /// Prints the counts under a title.
    fn print(&self, title: &str);

    /// Prints the counts.
    ///
    /// # Panics
    /// Where something was refused.
    fn assert_all_accepted(&self, title: &str) {
        self.print(title);
        assert!((1..=UNKNOWN_RULES).all(|number| self.count_of(number) == 0));
    }

    /// Prints the counts.
    ///
    /// # Panics
    /// Where a number is missing.
    fn assert_every_number_came_up(&self, title: &str) {
        self.print(title);
        for number in 0..=Self::LAST {
            assert!(self.count_of(number) > 0, "{number} never came up");
        }
    }
}
