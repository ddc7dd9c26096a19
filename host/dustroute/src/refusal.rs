//! Why lists were not accepted, and where.

use std::error::Error;
use std::fmt;

/// The first fault of the lists: the one with the lowest [`Reason`], at its
/// earliest place, components before connections before frontiers. Unknown rules
/// alone, which have a high number, come before all of these. Of a sheet it is the
/// first line that is not as it must be, and only then its lists.
///
/// ```
/// use dustroute::{BlockKind, Component, ComponentId, Position, Rules, groups};
///
/// let wire = |id, x| Component::new(ComponentId(id), Position::new(x, 0, 0), BlockKind::RedstoneWire);
/// let components = [wire(4, 0), wire(5, 1), wire(4, 2)];
/// let said = groups(Rules::Two, &components, &[]).map_err(|refusal| refusal.to_string());
/// let text = "refusal 5 at item 2 of the components: an id already used by an earlier component";
/// assert_eq!(said, Err(text.to_string()));
/// ```
#[derive(Clone, Copy, Debug, Eq, Hash, PartialEq)]
pub struct Refusal {
    /// What is wrong.
    pub reason: Reason,
    /// Which item of which list; none where no list is at fault.
    pub place: Option<Place>,
}

/// An item of a list, or a line of a sheet.
#[derive(Clone, Copy, Debug, Eq, Hash, PartialEq)]
pub struct Place {
    /// The list at fault.
    pub list: List,
    /// The item at fault, from 0: of [`List::Lines`] the line. Of the lists that [`groups`](crate::groups)
    /// and [`liveness`](crate::liveness) were handed there is always such an
    /// item: for [`Reason::Length`] the first beyond the limit, for
    /// [`Reason::ComponentOrder`], [`Reason::RepeatedId`] and
    /// [`Reason::ConnectionOrder`] the later of the two.
    pub item: usize,
}

/// The list that a refusal is about.
#[derive(Clone, Copy, Debug, Eq, Hash, PartialEq)]
pub enum List {
    /// List 0.
    Components,
    /// List 1: the grouping connections or the port connections.
    Connections,
    /// List 2.
    Frontiers,
    /// List 3: no list, but the lines of a sheet, each as it stands there.
    Lines,
}

impl fmt::Display for List {
    fn fmt(&self, out: &mut fmt::Formatter<'_>) -> fmt::Result {
        out.write_str(match self {
            Self::Components => "components",
            Self::Connections => "connections",
            Self::Frontiers => "frontiers",
            Self::Lines => "lines",
        })
    }
}

/// What is wrong. The numbers are those of sheets, reports and the C header.
#[derive(Clone, Copy, Debug, Eq, Hash, Ord, PartialEq, PartialOrd)]
#[non_exhaustive]
pub enum Reason {
    /// 1: a list over its limit, or not whole records (which only
    /// [bytes](crate::bytes) can be).
    Length,
    /// 2: an output or work slice shorter than the worst case for these lists.
    /// Only where slices are lent, by [`bytes`](crate::bytes): those of a sheet are
    /// made as long as they must be.
    ShortSlice,
    /// 3: a field outside its range. In typed lists only coordinates can be.
    OutOfRange,
    /// 4: components not strictly ascending.
    ComponentOrder,
    /// 5: an id already used by an earlier component.
    RepeatedId,
    /// 6: grouping connections not strictly ascending.
    ConnectionOrder,
    /// 7: an endpoint of a non-support port connection is no component.
    /// [`clear`](crate::clear) gives back the list without such connections.
    MissingEndpoint,
    /// 8: the port asked for has no verdict: there is no such component, or the
    /// port is no required input of it. Only of [`driven`](crate::driven),
    /// [`input`](crate::input()), [`trail`](crate::trail) and
    /// [`check_trail`](crate::check_trail).
    NoVerdict,
    /// 9: a line of a sheet that is not as it must be, that is missing, or that is
    /// one too many. Only of sheets.
    BadLine,
    /// 10: the input is not driven, so that no way leads to it. Only of
    /// [`trail`](crate::trail).
    NotDriven,
    /// 11: rules that are not known. Only where they are given by a number: by
    /// [bytes](crate::bytes), by [`Rules::try_from`](crate::Rules), and by the line
    /// of a sheet, which is then its place.
    UnknownRules,
    /// 12: the line `sheet=` has another number than 2. Only of sheets.
    UnknownForm,
    /// 13: two sheets are marked by different rules. Only of [`join`](crate::join()).
    OtherRules,
    /// 14: two sheets have a component of one id, with unequal fields; the place is
    /// that of the second sheet's component. Only of [`join`](crate::join()).
    UnequalFields,
    /// 15: no place is free: as many blocks are present as a plot may hold. Only of
    /// [`HeldPlot::place`](crate::HeldPlot::place), as the next.
    FullPlot,
    /// 16: the id of the block to be placed is present already.
    PresentId,
    /// 17: no block with the id is present. Only of
    /// [`HeldPlot::break_block`](crate::HeldPlot::break_block) and
    /// [`HeldPlot::connect`](crate::HeldPlot::connect).
    AbsentId,
    /// 18: no opening and clicks can leave a plot with these numbers. Only of
    /// [`HeldPlot::load`](crate::HeldPlot::load): what was saved is damaged.
    StrangePlot,
    /// No refusal: the answer is none that the library's contract allows, so
    /// the archive that was linked is not the one of this crate's version.
    Unreadable,
}

impl Reason {
    /// The reasons that an entry gives, by rising number.
    const ALL: [Self; 18] = [
        Self::Length,
        Self::ShortSlice,
        Self::OutOfRange,
        Self::ComponentOrder,
        Self::RepeatedId,
        Self::ConnectionOrder,
        Self::MissingEndpoint,
        Self::NoVerdict,
        Self::BadLine,
        Self::NotDriven,
        Self::UnknownRules,
        Self::UnknownForm,
        Self::OtherRules,
        Self::UnequalFields,
        Self::FullPlot,
        Self::PresentId,
        Self::AbsentId,
        Self::StrangePlot,
    ];

    /// Whether it is of a line wherever it is given.
    const fn is_of_a_line(self) -> bool {
        matches!(self, Self::BadLine | Self::UnknownForm)
    }

    /// The number of the refusal, 0 for [`Reason::Unreadable`].
    #[must_use]
    pub const fn number(self) -> u8 {
        match self {
            Self::Unreadable => 0,
            Self::Length => 1,
            Self::ShortSlice => 2,
            Self::OutOfRange => 3,
            Self::ComponentOrder => 4,
            Self::RepeatedId => 5,
            Self::ConnectionOrder => 6,
            Self::MissingEndpoint => 7,
            Self::NoVerdict => 8,
            Self::BadLine => 9,
            Self::NotDriven => 10,
            Self::UnknownRules => 11,
            Self::UnknownForm => 12,
            Self::OtherRules => 13,
            Self::UnequalFields => 14,
            Self::FullPlot => 15,
            Self::PresentId => 16,
            Self::AbsentId => 17,
            Self::StrangePlot => 18,
        }
    }
}

impl fmt::Display for Reason {
    fn fmt(&self, out: &mut fmt::Formatter<'_>) -> fmt::Result {
        out.write_str(match self {
            Self::Length => "a list over its limit, or not whole records",
            Self::ShortSlice => {
                "an output or work slice shorter than the worst case for these lists"
            }
            Self::OutOfRange => "a field outside its range",
            Self::ComponentOrder => "components not strictly ascending",
            Self::RepeatedId => "an id already used by an earlier component",
            Self::ConnectionOrder => "grouping connections not strictly ascending",
            Self::MissingEndpoint => {
                "an endpoint of a non-support port connection is no component \
                 (`clear` drops such connections)"
            }
            Self::NoVerdict => "the port asked for is no required input",
            Self::BadLine => "not the line that belongs there",
            Self::NotDriven => "the input asked for is not driven",
            Self::UnknownRules => "rules that are not known",
            Self::UnknownForm => "a form of a sheet that is not known",
            Self::OtherRules => "the two sheets are marked by different rules",
            Self::UnequalFields => "a component that both sheets have, with unequal fields",
            Self::FullPlot => "no place is free in the plot",
            Self::PresentId => "a block with this id is present already",
            Self::AbsentId => "no block with this id is present",
            Self::StrangePlot => "a plot that no opening and clicks can leave: it is damaged",
            Self::Unreadable => "the answer of an archive of another version",
        })
    }
}

impl Refusal {
    /// What stands for an answer that cannot be read.
    pub(crate) const UNREADABLE: Self = Self {
        reason: Reason::Unreadable,
        place: None,
    };

    /// The refusal that an entry of [`bytes`](crate::bytes) answered; none
    /// where it accepted.
    ///
    /// ```
    /// use dustroute::{List, Reason, Refusal};
    ///
    /// let refusal = Refusal::of(7 + 256 * 1 + 65_536 * 2);
    /// assert_eq!(refusal.map(|it| it.reason), Some(Reason::MissingEndpoint));
    /// let place = refusal.and_then(|it| it.place);
    /// assert_eq!(place.map(|it| (it.list, it.item)), Some((List::Connections, 2)));
    /// assert_eq!(Refusal::of(65_536 * 3), None);
    /// ```
    #[must_use]
    pub fn of(answer: u64) -> Option<Self> {
        let [number, list, ..] = answer.to_le_bytes();
        if [number, list] == [0, 0] {
            return None;
        }
        Some(Self::read(number, list, answer >> 16).unwrap_or(Self::UNREADABLE))
    }

    /// The refusal that an entry of sheets answered: the rules, too, are those of a
    /// line there.
    pub(crate) fn of_sheet(answer: u64) -> Option<Self> {
        let refusal = Self::of(answer)?;
        if refusal.reason != Reason::UnknownRules {
            return Some(refusal);
        }
        let line = usize::try_from(answer >> 16).map(|item| Self {
            place: Some(Place {
                list: List::Lines,
                item,
            }),
            ..refusal
        });
        Some(line.unwrap_or(Self::UNREADABLE))
    }

    fn read(number: u8, list: u8, item: u64) -> Option<Self> {
        let mut reasons = Reason::ALL.into_iter();
        let reason = reasons.find(|it| it.number() == number)?;
        let list = match list {
            3 if reason.is_of_a_line() => List::Lines,
            _ if reason.is_of_a_line() => return None,
            0 => List::Components,
            1 => List::Connections,
            2 => List::Frontiers,
            3 => {
                return Some(Self {
                    reason,
                    place: None,
                });
            }
            _ => return None,
        };
        let item = usize::try_from(item).ok()?;
        let place = Some(Place { list, item });
        Some(Self { reason, place })
    }
}

impl fmt::Display for Refusal {
    fn fmt(&self, out: &mut fmt::Formatter<'_>) -> fmt::Result {
        let reason = self.reason;
        write!(out, "refusal {}", reason.number())?;
        match self.place {
            Some(Place {
                list: List::Lines,
                item,
            }) => write!(out, " at line {item}")?,
            Some(Place { list, item }) => write!(out, " at item {item} of the {list}")?,
            None => {}
        }
        write!(out, ": {reason}")
    }
}

impl Error for Refusal {}

#[cfg(test)]
mod tests {
    use super::{Place, Reason, Refusal};
    use crate::List;

    #[test]
    fn every_number_is_read() {
        for (number, reason) in (1..=18).zip(Reason::ALL) {
            assert_eq!(reason.number(), number);
            let refusal = Refusal::of(u64::from(number) + 256 * 3);
            let line = Place {
                list: List::Lines,
                item: 0,
            };
            let place = [9, 12].contains(&number).then_some(line);
            assert_eq!(refusal, Some(Refusal { reason, place }));
        }
    }

    /// What a sheet's line has told before stays as it was for a list's entry.
    #[test]
    fn lines_are_those_of_a_sheet() {
        let said = |answer: u64| Refusal::of_sheet(answer).map(|it| it.to_string());
        for (number, words) in [
            (9, "not the line that belongs there"),
            (11, "rules that are not known"),
            (12, "a form of a sheet that is not known"),
        ] {
            for line in [0, 1, 65_535] {
                let wanted = format!("refusal {number} at line {line}: {words}");
                assert_eq!(said(number + 256 * 3 + 65_536 * line), Some(wanted));
            }
        }
        for answer in [
            0,
            65_536 * 7,
            2 + 256 * 3,
            1 + 256 + 65_536 * 4_096,
            9,
            12 + 256,
        ] {
            assert_eq!(Refusal::of_sheet(answer), Refusal::of(answer));
        }
    }

    #[test]
    fn unknown_rules_are_of_no_list() {
        let refusal = Refusal::of(11 + 256 * 3);
        let said = refusal.map(|it| it.to_string());
        assert_eq!(
            said.as_deref(),
            Some("refusal 11: rules that are not known")
        );
    }

    #[test]
    fn every_list_is_read() {
        let lists = [List::Components, List::Connections, List::Frontiers];
        for (code, list) in (0..).zip(lists) {
            let refusal = Refusal::of(3 + 256 * code + 65_536 * 4_095);
            let place = Some(Place { list, item: 4_095 });
            let reason = Reason::OutOfRange;
            assert_eq!(refusal, Some(Refusal { reason, place }));
        }
    }

    #[test]
    fn other_answers_are_unreadable() {
        for answer in [
            9,
            12,
            9 + 256,
            19 + 256 * 3,
            255,
            256,
            1 + 256 * 4,
            65_535,
            u64::MAX,
        ] {
            assert_eq!(Refusal::of(answer), Some(Refusal::UNREADABLE), "{answer}");
        }
        assert_eq!(Reason::Unreadable.number(), 0);
    }
}
