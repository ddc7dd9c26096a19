//! Links the archive of what only the tests call.

fn main() {
    let _ = archive::link("probe");
}
