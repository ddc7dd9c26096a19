//! By which school year's rules a plot is marked.

use std::fmt;

use crate::{BlockKind, Component, Reason, Refusal};

/// By which school year's rules a plot is marked. Plots of earlier years are
/// still taught from, so that every year's rules remain, and a caller says which
/// are meant: none are taken for granted.
///
/// Each year's rules have what those before it have. Rules 1 and 2 differ in lamps
/// alone, and there only in what [`liveness`](crate::liveness) says of inferred
/// inputs: of them, of what they would drive, and whether a required input awaits
/// one. Rules 3 also take no blank facing for North: they differ from rules 2 in
/// the ports of devices without a facing, so in what [`ports`](crate::ports) keeps
/// of a plot, in which required inputs there are, and in the last block of a
/// [`report`](crate::report). On the same port connections regions, sources and
/// what these drive are the same under rules 2 and 3; nets and fragments are the
/// same under all.
///
/// ```
/// use dustroute::{
///     BlockKind, Component, ComponentId, Facing, PortConnection, PortRef, Position,
///     RequiredInputStatus, Rules, TransferKind, liveness,
/// };
///
/// // A lamp feeds a wire, and the wire a repeater.
/// let [lamp, wire, repeater] = [ComponentId(1), ComponentId(2), ComponentId(3)];
/// let components = [
///     Component::new(lamp, Position::new(0, 0, 0), BlockKind::RedstoneLamp),
///     Component::new(wire, Position::new(1, 0, 0), BlockKind::RedstoneWire),
///     Component {
///         facing: Some(Facing::East),
///         ..Component::new(repeater, Position::new(2, 0, 0), BlockKind::Repeater)
///     },
/// ];
/// let feed = |source, sink| PortConnection {
///     source: PortRef::new(source, 1),
///     sink: PortRef::new(sink, 1),
///     transfer: TransferKind::WeakPower,
/// };
/// let connections = [feed(lamp, wire), feed(wire, repeater)];
///
/// // A lamp feeds as any block does, so that nothing is still to come.
/// let old = liveness(Rules::One, &components, &connections, &[])?;
/// assert_eq!(old.sources, []);
/// assert_eq!(old.inputs[0].status, RequiredInputStatus::NoKnownSource);
///
/// // A lamp is passed over: a lever may still be laid at the wire.
/// let new = liveness(Rules::Two, &components, &connections, &[])?;
/// assert_eq!(new.sources[0].component, wire);
/// assert_eq!(new.inputs[0].status, RequiredInputStatus::AwaitingExternalInput);
/// # Ok::<(), dustroute::Refusal>(())
/// ```
#[derive(Clone, Copy, Debug, Eq, Hash, Ord, PartialEq, PartialOrd)]
#[non_exhaustive]
pub enum Rules {
    /// Number 1: the rules of the first year, of sheets that name none, and of
    /// the old report. What feeds a region from outside, lamps among it, is an
    /// external feed, unless it is a [`Solid`](crate::BlockKind::Solid) or
    /// [`Transparent`](crate::BlockKind::Transparent). So a wire that only a
    /// lamp feeds is no inferred input.
    One,
    /// Number 2: the rules of the year in which lamps became passive. A
    /// [`RedstoneLamp`](crate::BlockKind::RedstoneLamp) is no external feed
    /// either. So a wire that only a lamp feeds may be an inferred input. All
    /// else is as by number 1.
    Two,
    /// Number 3: those of number 2, and a facing that was left blank is not read as
    /// North. A [`Repeater`](crate::BlockKind::Repeater) or
    /// [`Comparator`](crate::BlockKind::Comparator) without one has its support
    /// port only, as port 0, and so no required input; a
    /// [`Piston`](crate::BlockKind::Piston) has its four inputs only. Such devices
    /// are listed at the end of a [`report`](crate::report).
    Three,
}

impl Rules {
    /// All rules, by rising number.
    pub const ALL: [Self; 3] = [Self::One, Self::Two, Self::Three];

    /// The number, as a sheet has it in its line `rules=` and as the calls on
    /// [bytes](crate::bytes) take it.
    ///
    /// ```
    /// use dustroute::Rules;
    ///
    /// assert_eq!(Rules::ALL.map(Rules::number), [1, 2, 3]);
    /// ```
    #[must_use]
    pub const fn number(self) -> i64 {
        match self {
            Self::One => 1,
            Self::Two => 2,
            Self::Three => 3,
        }
    }

    /// Whether by these rules nobody saw how the component faces: a repeater,
    /// comparator or piston without a facing, from number 3 on. It is listed at the
    /// end of a [`report`](crate::report), connected or not.
    ///
    /// ```
    /// use dustroute::{BlockKind, Component, ComponentId, Facing, Position, Rules};
    ///
    /// let piston = Component::new(ComponentId(1), Position::new(0, 0, 0), BlockKind::Piston);
    /// assert!(Rules::Three.leaves_unread(&piston));
    /// assert!(!Rules::Two.leaves_unread(&piston));
    /// let seen = Component { facing: Some(Facing::Up), ..piston };
    /// assert!(!Rules::Three.leaves_unread(&seen));
    /// ```
    #[must_use]
    pub fn leaves_unread(self, component: &Component) -> bool {
        let turns = matches!(
            component.kind,
            BlockKind::Repeater | BlockKind::Comparator | BlockKind::Piston
        );
        self >= Self::Three && turns && component.facing.is_none()
    }
}

impl fmt::Display for Rules {
    fn fmt(&self, out: &mut fmt::Formatter<'_>) -> fmt::Result {
        write!(out, "rules {}", self.number())
    }
}

/// The rules that have a number; of others the refusal that the library gives
/// them too.
///
/// ```
/// use dustroute::{Reason, Rules};
///
/// assert_eq!(Rules::try_from(2), Ok(Rules::Two));
/// let refused = Rules::try_from(4);
/// assert_eq!(refused.map_err(|refusal| refusal.reason), Err(Reason::UnknownRules));
/// ```
impl TryFrom<i64> for Rules {
    type Error = Refusal;

    fn try_from(number: i64) -> Result<Self, Refusal> {
        let mut all = Self::ALL.into_iter();
        let found = all.find(|it| it.number() == number);
        found.ok_or(Refusal {
            reason: Reason::UnknownRules,
            place: None,
        })
    }
}

#[cfg(test)]
mod tests {
    use super::Rules;
    use crate::{Reason, Refusal};

    #[test]
    fn every_number_is_that_of_its_rules() {
        for rules in Rules::ALL {
            assert_eq!(Rules::try_from(rules.number()), Ok(rules));
        }
        let said = Rules::ALL.map(|it| it.to_string());
        assert_eq!(said, ["rules 1", "rules 2", "rules 3"]);
        assert!(Rules::One < Rules::Two && Rules::Two < Rules::Three);
    }

    /// Also those that a narrower number would take for a known one.
    #[test]
    fn other_numbers_are_unknown() {
        let refusal = Refusal {
            reason: Reason::UnknownRules,
            place: None,
        };
        for number in [
            i64::MIN,
            i64::MIN + 1,
            -2,
            -1,
            0,
            4,
            257,
            (1 << 32) + 1,
            i64::MAX,
        ] {
            assert_eq!(Rules::try_from(number), Err(refusal), "{number}");
        }
    }
}
