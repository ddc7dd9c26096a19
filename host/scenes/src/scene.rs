//! A scene: the four lists that the entries take between them.

use std::fmt;

/// Components and grouping connections for the grouping and ports entries;
/// components, port connections and frontiers for the liveness entries.
#[derive(Clone, Debug, Default, Eq, PartialEq)]
pub struct Scene {
    pub components: Vec<i64>,
    pub connections: Vec<i64>,
    pub ports: Vec<i64>,
    pub frontiers: Vec<i64>,
}

/// Numbers printed of one list; a longer list shows its length only.
const SHOWN: usize = 120;

fn show(out: &mut fmt::Formatter<'_>, name: &str, list: &[i64]) -> fmt::Result {
    write!(out, "\n  {name}[{}]", list.len())?;
    for number in list.iter().take(SHOWN) {
        write!(out, " {number}")?;
    }
    if list.len() > SHOWN {
        write!(out, " ...")?;
    }
    Ok(())
}

impl fmt::Display for Scene {
    fn fmt(&self, out: &mut fmt::Formatter<'_>) -> fmt::Result {
        show(out, "components", &self.components)?;
        show(out, "connections", &self.connections)?;
        show(out, "ports", &self.ports)?;
        show(out, "frontiers", &self.frontiers)
    }
}
