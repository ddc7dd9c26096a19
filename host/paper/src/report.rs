//! What a report prints of a scene, given the answers about it.

use std::fmt::{Display, Write};

use oracle::{Groups, Input, Liveness};
use scenes::Refusal;
use scenes::limits::{COMPONENT, RULES_OF_THE_RUST, UNREAD_BLANKS};

use crate::ports::is_unread;
use crate::{liveness, ports, sloped};

const COMPONENT_KEYS: [&str; 6] = ["id", "net", "fragment", "region", "drive", "potential"];
const CONNECTION_KEYS: [&str; 6] = [
    "source",
    "source_port",
    "sink",
    "sink_port",
    "transfer",
    "slope",
];
const REGION_KEYS: [&str; 2] = ["cyclic", "has_drive"];
const SOURCE_KEYS: [&str; 2] = ["id", "kind"];
const INPUT_KEYS: [&str; 3] = ["device", "port", "status"];

/// One line. Writing to a string cannot fail.
fn line(text: &mut String, key: &str, value: impl Display) {
    let _ = writeln!(text, "{key}={value}");
}

fn fields(text: &mut String, keys: &[&str], row: &[i64]) {
    for (key, value) in keys.iter().zip(row) {
        line(text, key, value);
    }
}

/// A count, and a line for each number of the rows.
fn block<const WIDTH: usize>(
    text: &mut String,
    name: &str,
    keys: &[&str; WIDTH],
    rows: &[[i64; WIDTH]],
) {
    line(text, name, rows.len());
    for row in rows {
        fields(text, keys, row);
    }
}

/// Rising ids with one blank between.
fn set(text: &mut String, key: &str, ids: &[i64]) {
    let ids: Vec<String> = ids.iter().map(i64::to_string).collect();
    line(text, key, ids.join(" "));
}

fn input(text: &mut String, input: &Input) {
    let row = [input.device, input.port, input.status];
    fields(text, &INPUT_KEYS, &row);
    set(text, "immediate", &input.immediate);
    set(text, "inferred", &input.inferred);
}

/// Id, net, fragment, region, and whether it is in `drive` and `potential`.
fn component_rows(components: &[i64], groups: &Groups, alive: &Liveness) -> Vec<[i64; 6]> {
    let ids = components.chunks_exact(COMPONENT).map(|record| record[0]);
    let numbers = groups.net.iter().zip(&groups.fragment).zip(&alive.region);
    let holds = |set: &[i64], id: i64| i64::from(set.binary_search(&id).is_ok());
    let row = |(id, ((net, fragment), region)): (i64, ((&i64, &i64), &i64))| {
        let flags = [&alive.drive, &alive.potential].map(|set| holds(set, id));
        [id, *net, *fragment, *region, flags[0], flags[1]]
    };
    ids.zip(numbers).map(row).collect()
}

/// "Such devices are listed in the report's last block, `unread=` with a count and
/// then an `id=` line each in list order. Rules 1 and 2 print no such block."
fn unread(text: &mut String, rules: i64, components: &[i64]) {
    if rules >= UNREAD_BLANKS {
        let records = components.chunks_exact(COMPONENT);
        let unread = records.filter(|record| is_unread(rules, record));
        let rows: Vec<[i64; 1]> = unread.map(|record| [record[0]]).collect();
        block(text, "unread", &["id"], &rows);
    }
}

/// The report of a scene of these components, of which these are the groups,
/// the kept port connections and the analysis.
#[must_use]
pub fn print(
    rules: i64,
    components: &[i64],
    groups: &Groups,
    kept: &[[i64; 5]],
    alive: &Liveness,
) -> Vec<u8> {
    let mut text = String::new();
    line(&mut text, "answer", 0);
    let rows = component_rows(components, groups, alive);
    block(&mut text, "components", &COMPONENT_KEYS, &rows);
    let rows = sloped(components, kept);
    block(&mut text, "connections", &CONNECTION_KEYS, &rows);
    let flags = alive.regions.iter();
    let flags = flags.map(|it| [it.cyclic, it.contains_drive_source].map(i64::from));
    let rows: Vec<[i64; 2]> = flags.collect();
    block(&mut text, "regions", &REGION_KEYS, &rows);
    block(&mut text, "sources", &SOURCE_KEYS, &alive.sources);
    line(&mut text, "inputs", alive.inputs.len());
    for row in &alive.inputs {
        input(&mut text, row);
    }
    unread(&mut text, rules, components);
    text.into_bytes()
}

/// The report of a scene: by rules 1 of the unchanged Rust's answers, slopes
/// aside; by others of its groups and of the restatement.
#[must_use]
pub fn report(rules: i64, components: &[i64], connections: &[i64], frontiers: &[i64]) -> Vec<u8> {
    let groups = oracle::groups(components, connections);
    let (kept, alive) = if rules == RULES_OF_THE_RUST {
        let kept = oracle::ports(components, connections);
        let alive = oracle::liveness(components, &kept.concat(), frontiers);
        (kept, alive)
    } else {
        let kept = ports(rules, components, connections);
        let alive = liveness(rules, components, &kept.concat(), frontiers);
        (kept, alive)
    };
    print(rules, components, &groups, &kept, &alive)
}

/// What is printed of a refusal.
#[must_use]
pub fn refusal_lines(refusal: Refusal) -> Vec<u8> {
    let mut text = String::new();
    line(&mut text, "answer", refusal.number);
    line(&mut text, "list", refusal.list);
    line(&mut text, "item", refusal.item);
    text.into_bytes()
}
