//! What is wrong with an item of a list.

use super::shape::{COUNTS, Shape};
use crate::{Component, Connection, List, PortConnection, Position, Reason, limits};

/// A field of a record: its name, and the least and most that it may be.
#[derive(Clone, Copy, Debug, Eq, PartialEq)]
pub struct Key {
    pub name: &'static str,
    least: i64,
    most: i64,
}

const fn key(name: &'static str, least: i64, most: i64) -> Key {
    Key { name, least, most }
}

const fn id(name: &'static str) -> Key {
    key(name, 0, 4_294_967_295)
}

const fn axis(name: &'static str) -> Key {
    key(name, -30_000_000, 30_000_000)
}

pub const COMPONENT: [Key; 8] = [
    id("id"),
    axis("x"),
    axis("y"),
    axis("z"),
    key("kind", 0, 12),
    key("facing", 0, 6),
    key("support", 0, 6),
    key("conducts", 0, 1),
];

pub const CONNECTION: [Key; 3] = [id("source"), id("sink"), key("kind", 0, 9)];

const PORT_CONNECTION: [Key; 5] = [
    id("source"),
    key("source_port", 0, 255),
    id("sink"),
    key("sink_port", 0, 255),
    key("transfer", 0, 6),
];

pub const FRONTIER: [Key; 3] = [axis("x"), axis("y"), axis("z")];

/// What an item of a list is called.
pub const fn item_of(list: usize) -> &'static str {
    match list {
        0 => "component",
        1 => "connection",
        _ => "frontier",
    }
}

/// The three lists as they were given.
pub enum Lists<'a> {
    Sheet(&'a Shape<'a>),
    Typed {
        components: &'a [Component],
        connections: Connections<'a>,
        frontiers: &'a [Position],
    },
}

/// The second list, of which there are two kinds.
pub enum Connections<'a> {
    Grouping(&'a [Connection]),
    Ports(&'a [PortConnection]),
}

/// An item with what is known of it.
struct Record<'a, 'b> {
    lists: &'b Lists<'a>,
    list: usize,
    item: usize,
    numbers: Vec<i64>,
}

impl<'a> Lists<'a> {
    pub const fn sheet(shape: &'a Shape<'a>) -> Self {
        Self::Sheet(shape)
    }

    pub const fn grouping(
        components: &'a [Component],
        connections: &'a [Connection],
        frontiers: &'a [Position],
    ) -> Self {
        Self::Typed {
            components,
            connections: Connections::Grouping(connections),
            frontiers,
        }
    }

    pub const fn ports(
        components: &'a [Component],
        connections: &'a [PortConnection],
        frontiers: &'a [Position],
    ) -> Self {
        Self::Typed {
            components,
            connections: Connections::Ports(connections),
            frontiers,
        }
    }

    const fn are_ports(&self) -> bool {
        matches!(
            self,
            Self::Typed {
                connections: Connections::Ports(_),
                ..
            }
        )
    }

    fn count(&self, list: usize) -> Option<usize> {
        match (self, list) {
            (Self::Sheet(shape), _) => shape.count(list),
            (Self::Typed { components, .. }, 0) => Some(components.len()),
            (Self::Typed { frontiers, .. }, 2) => Some(frontiers.len()),
            (Self::Typed { connections, .. }, _) => Some(match connections {
                Connections::Grouping(list) => list.len(),
                Connections::Ports(list) => list.len(),
            }),
        }
    }

    fn numbers(&self, list: usize, item: usize) -> Option<Vec<i64>> {
        match (self, list) {
            (Self::Sheet(shape), _) => shape.record(list, item),
            (Self::Typed { components, .. }, 0) => Some(components.get(item)?.record().to_vec()),
            (Self::Typed { frontiers, .. }, 2) => Some(frontiers.get(item)?.record().to_vec()),
            (Self::Typed { connections, .. }, _) => Some(match connections {
                Connections::Grouping(list) => list.get(item)?.record().to_vec(),
                Connections::Ports(list) => list.get(item)?.record().to_vec(),
            }),
        }
    }

    fn record<'b>(&'b self, list: usize, item: usize) -> Option<Record<'a, 'b>> {
        let numbers = self.numbers(list, item)?;
        Some(Record {
            lists: self,
            list,
            item,
            numbers,
        })
    }

    /// The words for an item at which lists were refused.
    pub fn told(&self, reason: Reason, list: List, item: usize) -> Option<String> {
        let list = match list {
            List::Components => 0,
            List::Connections => 1,
            List::Frontiers => 2,
            List::Lines => return None,
        };
        if reason == Reason::Length {
            return self.too_long(list);
        }
        let record = self.record(list, item)?;
        let fault = match reason {
            Reason::OutOfRange => record.out_of_range(),
            Reason::ComponentOrder => record.out_of_order("x, then y, then z, then id"),
            Reason::RepeatedId => record.repeated_id(),
            Reason::ConnectionOrder => record.out_of_order("source, then sink, then kind"),
            Reason::MissingEndpoint => record.missing_end(),
            _ => None,
        };
        Some(format!("{}: {}", record.named(), fault?))
    }

    fn too_long(&self, list: usize) -> Option<String> {
        let (name, count) = (*COUNTS.get(list)?, self.count(list)?);
        let limits = [limits::COMPONENTS, limits::CONNECTIONS, limits::FRONTIERS];
        let limit = limits.get(list)?;
        let place = match self {
            Self::Sheet(shape) => {
                format!("line {} (`{name}={count}`)", shape.count_line(list)? + 1)
            }
            Self::Typed { .. } => format!("there are {count} {name}"),
        };
        Some(format!("{place}: at most {limit} are taken"))
    }
}

impl Record<'_, '_> {
    fn keys(&self) -> &'static [Key] {
        match self.list {
            0 => &COMPONENT,
            1 if self.lists.are_ports() => &PORT_CONNECTION,
            1 => &CONNECTION,
            _ => &FRONTIER,
        }
    }

    /// Which item it is, as a person looks for it.
    fn named(&self) -> String {
        let what = match self.list {
            1 if self.lists.are_ports() => "port connection",
            list => item_of(list),
        };
        let mut notes = vec![self.short()];
        if let Lists::Sheet(shape) = self.lists
            && let Some(lines) = shape.lines(self.list, self.item)
        {
            let (first, last) = (lines.start() + 1, lines.end() + 1);
            notes.push(if first == last {
                format!("line {first}")
            } else {
                format!("lines {first} to {last}")
            });
        }
        format!("{what} number {} ({})", self.item + 1, notes.join(", "))
    }

    /// What tells it from others.
    fn short(&self) -> String {
        match (self.list, &self.numbers[..]) {
            (0, [id, ..]) => format!("id {id}"),
            (1, [source, from, sink, into, _]) => {
                format!("{source} port {from} to {sink} port {into}")
            }
            (1, [source, sink, _]) => format!("{source} to {sink}"),
            (_, numbers) => {
                let numbers: Vec<String> = numbers.iter().map(ToString::to_string).collect();
                format!("at {}", numbers.join(","))
            }
        }
    }

    fn out_of_range(&self) -> Option<String> {
        let mut each = self.keys().iter().zip(&self.numbers).enumerate();
        let outside = |key: &Key, number: i64| number < key.least || number > key.most;
        let (field, (key, number)) = each.find(|(_, (key, number))| outside(key, **number))?;
        let Key { name, least, most } = key;
        let line = match self.lists {
            Lists::Sheet(shape) => shape.field_line(self.list, self.item, field),
            Lists::Typed { .. } => None,
        };
        Some(match line {
            Some(line) => format!(
                "line {}, `{name}={number}`, is not within {least} to {most}",
                line + 1
            ),
            None => format!("its {name}, {number}, is not within {least} to {most}"),
        })
    }

    /// By what records of its list ascend.
    fn rank(&self) -> Vec<i64> {
        match (self.list, &self.numbers[..]) {
            (0, [id, x, y, z, ..]) => vec![*x, *y, *z, *id],
            (_, numbers) => numbers.to_vec(),
        }
    }

    fn out_of_order(&self, order: &str) -> Option<String> {
        let before = self.lists.record(self.list, self.item.checked_sub(1)?)?;
        if before.rank() == self.rank() {
            return Some(format!(
                "it is the same as the one before it, {}",
                before.named()
            ));
        }
        Some(format!(
            "it belongs before {}, since they rise by {order}",
            before.named()
        ))
    }

    fn repeated_id(&self) -> Option<String> {
        let id = *self.numbers.first()?;
        let mut before = (0..self.item).filter_map(|item| self.lists.record(0, item));
        let before = before.find(|it| it.numbers.first() == Some(&id))?;
        Some(format!("{} has the id {id} too", before.named()))
    }

    fn missing_end(&self) -> Option<String> {
        let Lists::Typed { components, .. } = self.lists else {
            return None;
        };
        let [source, _, sink, ..] = self.numbers[..] else {
            return None;
        };
        let is_there = |id: i64| components.iter().any(|it| i64::from(it.id.0) == id);
        let missing = match [is_there(source), is_there(sink)] {
            [false, false] if source != sink => {
                format!("there is no block {source}, its source, and no block {sink}, its sink")
            }
            [false, false] => format!("there is no block {source}, its source and its sink"),
            [false, true] => format!("there is no block {source}, its source"),
            [true, false] => format!("there is no block {sink}, its sink"),
            [true, true] => return None,
        };
        Some(format!("{missing} (`clear` drops such connections)"))
    }
}
