//! Names of blocks, and numbers of things.

use dustroute::ComponentId;

use crate::plot::Plot;
use crate::told::Line;

/// A block by kind and id, as in "wire 6".
#[must_use]
pub fn named(plot: &Plot, id: ComponentId) -> (ComponentId, String) {
    let name = plot.block(id).map_or_else(
        || format!("block {}", id.0),
        |it| format!("{} {}", it.kind, id.0),
    );
    (id, name)
}

/// Where a block is, as in "5,0,0".
#[must_use]
pub fn at(plot: &Plot, id: ComponentId) -> String {
    let Some(block) = plot.block(id) else {
        return "no place".to_string();
    };
    let position = block.position;
    format!("{},{},{}", position.x, position.y, position.z)
}

/// With a capital letter first.
#[must_use]
pub fn capital(text: &str) -> String {
    let mut letters = text.chars();
    let first = letters.next();
    first.map_or_else(String::new, |it| it.to_uppercase().chain(letters).collect())
}

/// How many there are of something.
#[must_use]
pub fn count(count: usize, one: &str, more: &str) -> String {
    match count {
        1 => format!("1 {one}"),
        _ => format!("{count} {more}"),
    }
}

/// An id as a block's name where the block is on the plot, else as text.
pub fn id(line: Line, plot: &Plot, id: ComponentId) -> Line {
    match plot.block(id) {
        Some(_) => line.block((id, id.0.to_string())),
        None => line.and(id.0.to_string()),
    }
}

/// Goes on with ids, three or more in a row as "2 to 6".
pub fn ids(line: Line, of: impl IntoIterator<Item = ComponentId>) -> Line {
    let mut sorted: Vec<ComponentId> = of.into_iter().collect();
    sorted.sort_unstable();
    let rows = sorted.chunk_by(|a, b| a.0.checked_add(1) == Some(b.0));
    let name = |id: ComponentId| (id, id.0.to_string());
    let mut line = line;
    for (place, row) in rows.enumerate() {
        line = if place > 0 { line.and(", ") } else { line };
        line = match row {
            [first, _, .., last] => line.block(name(*first)).and(" to ").block(name(*last)),
            few => line.blocks(few.iter().map(|id| name(*id)), ", "),
        };
    }
    line
}

#[cfg(test)]
mod tests {
    use super::{capital, count, ids};
    use crate::told::Line;
    use dustroute::ComponentId;

    #[test]
    fn three_ids_in_a_row_are_a_range() {
        let ids = |of: &[u32]| ids(Line::default(), of.iter().map(|id| ComponentId(*id)));
        let told = |of: &[u32]| ids(of).text();
        assert_eq!(told(&[]), "");
        assert_eq!(told(&[7]), "7");
        assert_eq!(told(&[8, 7]), "7, 8");
        assert_eq!(told(&[4, 2, 3, 6, 9, 10]), "2 to 4, 6, 9, 10");
        assert_eq!(
            told(&[u32::MAX, 0, u32::MAX - 1]),
            "0, 4294967294, 4294967295"
        );
    }

    #[test]
    fn words_have_their_number() {
        assert_eq!(count(1, "box", "boxes"), "1 box");
        assert_eq!(
            [0, 2].map(|it| count(it, "box", "boxes")),
            ["0 boxes", "2 boxes"]
        );
        assert_eq!(
            [capital("pressure plate 3"), capital("")],
            ["Pressure plate 3", ""]
        );
    }
}
