//! The times as Markdown tables.

use scenes::sized::Shape;

use crate::measure::Medians;

/// The medians of one shape and size.
pub struct Row {
    pub shape: Shape,
    pub size: usize,
    /// On the average of the scenes.
    pub connections: usize,
    pub medians: Medians,
}

/// What the two sides do besides.
pub const NOTES: &str = "\
Medians in microseconds. The proved library also checks all lists for refusals and makes its own
table of ids; groups also read and write bytes. The Rust does more: groups become sets of members,
connections are sorted into a set, and each fragment is compared with each net for the nets that it
lists (here a function of its own). The scene builder also makes evidence with a string for each
connection, looks for each support among all components, copies blocks, nets and fragments, and
lists the ports of every component; all that is left out of the port. Liveness also reads and writes
bytes; in its first table the connections are those that the scene builder keeps, on the average of
the scenes, in its second the list is given and as long as it may be. The Rust also gives each verdict row
its immediate sources and inferred inputs (here a query of its own), by a search upstream for each.
A whole report is a sheet's bytes turned into a report's: the Rust's side has the tests' own reader and
printer around each of its functions, run once, and checks nothing but the lines.";

/// The times, and below them how they grow from the first size to the last.
pub fn print(title: &str, rows: &[Row]) {
    println!("## {title}\n");
    println!("| shape | components | connections | Rust | proved | Rust / proved |");
    println!("|---|---:|---:|---:|---:|---:|");
    for row in rows {
        let Medians { rust, proved } = row.medians;
        println!(
            "| {} | {} | {} | {rust:.1} | {proved:.1} | {:.1} |",
            row.shape.name(),
            row.size,
            row.connections,
            rust / proved
        );
    }
    println!();
    for shape in Shape::ALL {
        print_growth(shape, rows);
    }
    println!();
}

fn print_growth(shape: Shape, rows: &[Row]) {
    let mut of_shape = rows.iter().filter(|row| row.shape == shape);
    let (Some(first), Some(last)) = (of_shape.next(), of_shape.next_back()) else {
        return;
    };
    println!(
        "- {}: {} times the size, Rust {:.1} times the time, proved {:.1}",
        shape.name(),
        last.size / first.size,
        last.medians.rust / first.medians.rust,
        last.medians.proved / first.medians.proved
    );
}
