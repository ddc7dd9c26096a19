//! The step from one cell to another, for words and for arrows. Whether a connection
//! is kept is the core's to say; this only names the side.

use dustroute::{Facing, Position};

/// One step of a connection.
#[derive(Clone, Copy, Debug, Eq, PartialEq)]
pub struct Step {
    /// On which side of its source it leaves.
    pub face: Facing,
    /// How much higher its sink is: -1, 0 or 1.
    pub climb: i64,
}

impl Step {
    /// The step between two cells that touch as a step must; nothing where they do
    /// not.
    #[must_use]
    pub fn between(from: Position, to: Position) -> Option<Self> {
        let by = |from: i32, to: i32| i64::from(to) - i64::from(from);
        let climb = by(from.y, to.y);
        let face = match (by(from.x, to.x), by(from.z, to.z)) {
            (0, -1) => Facing::North,
            (1, 0) => Facing::East,
            (0, 1) => Facing::South,
            (-1, 0) => Facing::West,
            (0, 0) if climb == 1 => Facing::Up,
            (0, 0) if climb == -1 => Facing::Down,
            _ => return None,
        };
        (-1..=1).contains(&climb).then_some(Self { face, climb })
    }

    /// Whether it goes straight up or down.
    #[must_use]
    pub const fn is_upright(self) -> bool {
        matches!(self.face, Facing::Up | Facing::Down)
    }
}

#[cfg(test)]
mod tests {
    use super::Step;
    use dustroute::{Facing, Position};

    #[test]
    fn a_step_is_one_cell_and_may_climb() {
        let step = |x, y, z| {
            let step = Step::between(
                Position::new(5, 64, -3),
                Position::new(5 + x, 64 + y, z - 3),
            );
            step.map(|it| (it.face, it.climb))
        };
        assert_eq!(step(0, 0, -1), Some((Facing::North, 0)));
        assert_eq!(step(1, 1, 0), Some((Facing::East, 1)));
        assert_eq!(step(0, -1, 1), Some((Facing::South, -1)));
        assert_eq!(step(-1, 0, 0), Some((Facing::West, 0)));
        assert_eq!(step(0, 1, 0), Some((Facing::Up, 1)));
        assert_eq!(step(0, -1, 0), Some((Facing::Down, -1)));
        for (x, y, z) in [
            (0, 0, 0),
            (1, 0, 1),
            (2, 0, 0),
            (1, 2, 0),
            (0, 2, 0),
            (0, -2, -1),
        ] {
            assert_eq!(step(x, y, z), None);
        }
    }
}
