//! Damaged copies of a scene, each with the name of its fault.
//!
//! A copy may still be acceptable, or be refused for something else: the
//! restatement says which. What counts is that every fault comes up.

use crate::Scene;
use crate::limits::{
    COMPONENT, COMPONENT_RANGES, COMPONENTS, CONNECTION, CONNECTION_RANGES, CONNECTIONS, FRONTIER,
    FRONTIER_RANGES, FRONTIERS, LAST_ID, PORT_CONNECTION, PORT_CONNECTION_RANGES, Range,
};
use crate::random::Random;

/// The four lists of a scene.
#[derive(Clone, Copy, Debug, Eq, PartialEq)]
pub enum List {
    Components,
    Connections,
    Ports,
    Frontiers,
}

impl List {
    pub const ALL: [Self; 4] = [
        Self::Components,
        Self::Connections,
        Self::Ports,
        Self::Frontiers,
    ];

    /// The list itself.
    #[must_use]
    pub const fn of(self, scene: &Scene) -> &Vec<i64> {
        match self {
            Self::Components => &scene.components,
            Self::Connections => &scene.connections,
            Self::Ports => &scene.ports,
            Self::Frontiers => &scene.frontiers,
        }
    }

    /// The list itself, to be changed.
    const fn of_mut(self, scene: &mut Scene) -> &mut Vec<i64> {
        match self {
            Self::Components => &mut scene.components,
            Self::Connections => &mut scene.connections,
            Self::Ports => &mut scene.ports,
            Self::Frontiers => &mut scene.frontiers,
        }
    }

    #[must_use]
    pub const fn width(self) -> usize {
        match self {
            Self::Components => COMPONENT,
            Self::Connections => CONNECTION,
            Self::Ports => PORT_CONNECTION,
            Self::Frontiers => FRONTIER,
        }
    }

    #[must_use]
    pub const fn limit(self) -> usize {
        match self {
            Self::Components => COMPONENTS,
            Self::Connections | Self::Ports => CONNECTIONS,
            Self::Frontiers => FRONTIERS,
        }
    }

    #[must_use]
    pub const fn ranges(self) -> &'static [Range] {
        match self {
            Self::Components => &COMPONENT_RANGES,
            Self::Connections => &CONNECTION_RANGES,
            Self::Ports => &PORT_CONNECTION_RANGES,
            Self::Frontiers => &FRONTIER_RANGES,
        }
    }
}

/// One way to damage a list. Where the list is too short for it, nothing
/// happens.
#[derive(Clone, Copy, Debug, Eq, PartialEq)]
pub enum Fault {
    /// The last number is missing.
    Short,
    /// One number too many.
    Over,
    /// As many records as the limit and this many more numbers.
    PastLimit(usize),
    /// A field of a record set to a value.
    Field {
        record: usize,
        field: usize,
        value: i64,
    },
    /// A record changes places with the next.
    Swap(usize),
    /// A record is put in once more behind itself.
    Twice(usize),
    /// The first number (an id) of one record given to another.
    SameId { from: usize, to: usize },
    /// An end of a port connection set to an id that no component has.
    LostEnd { record: usize, field: usize },
}

/// A fault at a list.
#[derive(Clone, Copy, Debug, Eq, PartialEq)]
pub struct Damage {
    pub list: List,
    pub fault: Fault,
}

fn unused_id(scene: &Scene) -> i64 {
    let used: Vec<i64> = scene.components.chunks(COMPONENT).map(|it| it[0]).collect();
    let free = (0..=LAST_ID).rev().find(|id| !used.contains(id));
    free.unwrap_or(LAST_ID)
}

fn set(numbers: &mut [i64], place: usize, value: i64) {
    if let Some(number) = numbers.get_mut(place) {
        *number = value;
    }
}

/// Records up to the limit, the last one again and again, then `more` numbers.
fn lengthen(numbers: &mut Vec<i64>, width: usize, limit: usize, more: usize) {
    let last: Vec<i64> = match numbers.rchunks_exact(width).next() {
        Some(record) => record.to_vec(),
        None => vec![0; width],
    };
    let wanted = limit * width + more;
    let missing = wanted.saturating_sub(numbers.len());
    numbers.extend(last.into_iter().cycle().take(missing));
}

impl Damage {
    /// The scene with this damage.
    #[must_use]
    pub fn apply(self, scene: &Scene) -> Scene {
        let mut damaged = scene.clone();
        let lost = unused_id(scene);
        let width = self.list.width();
        let numbers = self.list.of_mut(&mut damaged);
        match self.fault {
            Fault::Short => drop(numbers.pop()),
            Fault::Over => numbers.push(0),
            Fault::PastLimit(more) => lengthen(numbers, width, self.list.limit(), more),
            Fault::Field {
                record,
                field,
                value,
            } => set(numbers, record * width + field, value),
            Fault::Swap(record) if (record + 2) * width <= numbers.len() => {
                let pair = &mut numbers[record * width..(record + 2) * width];
                pair.rotate_left(width);
            }
            Fault::Twice(record) if (record + 1) * width <= numbers.len() => {
                let copy = numbers[record * width..(record + 1) * width].to_vec();
                numbers.splice(record * width..record * width, copy);
            }
            Fault::SameId { from, to } if from * width < numbers.len() => {
                let id = numbers[from * width];
                set(numbers, to * width, id);
            }
            Fault::LostEnd { record, field } => set(numbers, record * width + field, lost),
            Fault::Swap(_) | Fault::Twice(_) | Fault::SameId { .. } => {}
        }
        damaged
    }
}

/// Values just outside a range, the ends of the type, and just inside.
fn values((low, high): Range) -> [i64; 6] {
    [low - 1, high + 1, i64::MIN, i64::MAX, low, high]
}

/// First, second, middle and last record of a list.
fn places(records: usize) -> Vec<usize> {
    let mut places = vec![0, 1, records / 2, records.saturating_sub(1)];
    places.retain(|&place| place < records);
    places.sort_unstable();
    places.dedup();
    places
}

fn length_faults(list: List) -> Vec<Fault> {
    let width = list.width();
    let mut faults = vec![Fault::Short, Fault::Over];
    faults.extend([0, 1, width - 1, width, width + 1, 7 * width].map(Fault::PastLimit));
    faults
}

fn field_faults(list: List, record: usize) -> impl Iterator<Item = Fault> {
    let fields = list.ranges().iter().enumerate();
    fields.flat_map(move |(field, &range)| {
        values(range).map(|value| Fault::Field {
            record,
            field,
            value,
        })
    })
}

fn record_faults(list: List, record: usize, records: usize) -> Vec<Fault> {
    let mut faults: Vec<Fault> = field_faults(list, record).collect();
    faults.extend([Fault::Swap(record), Fault::Twice(record)]);
    let others = [0, records / 2, records.saturating_sub(1)];
    faults.extend(others.map(|to| Fault::SameId { from: record, to }));
    if list == List::Ports {
        faults.extend([0, 2].map(|field| Fault::LostEnd { record, field }));
    }
    faults
}

/// Every fault of every list of a scene, at several records.
#[must_use]
pub fn single(scene: &Scene) -> Vec<Damage> {
    let mut all = Vec::new();
    for list in List::ALL {
        let records = list.of(scene).len() / list.width();
        let mut faults = length_faults(list);
        for record in places(records) {
            faults.extend(record_faults(list, record, records));
        }
        all.extend(faults.into_iter().map(|fault| Damage { list, fault }));
    }
    all
}

/// Two faults that compete, drawn at random.
pub fn pair(scene: &Scene, random: &mut Random) -> Option<[Damage; 2]> {
    let all = single(scene);
    let first = all.get(random.below(all.len())).copied()?;
    let second = all.get(random.below(all.len())).copied()?;
    Some([first, second])
}

/// Lists of any length, their numbers near the ranges or anywhere.
pub fn garbage(random: &mut Random) -> Scene {
    let wild = random.once_in(3);
    let mut scene = Scene::default();
    for list in List::ALL {
        let width = list.width();
        let records = random.below(6);
        let tail = if random.once_in(4) {
            random.below(width)
        } else {
            0
        };
        let numbers = list.of_mut(&mut scene);
        for place in 0..records * width + tail {
            let (low, high) = list.ranges()[place % width];
            numbers.push(match random.below(if wild { 8 } else { 80 }) {
                0 => random.pick(&values((low, high))),
                1 if wild => random.between(i64::MIN, i64::MAX),
                2..=4 => random.between(low, high),
                _ => random.between(low.max(0), high.min(3)),
            });
        }
    }
    scene
}
