//! The words of random plots, read back and held to the report.

mod common;

use std::collections::{BTreeMap, BTreeSet};
use std::error::Error;

use common::{Report, Verdict};
use dustroute::{
    ComponentId, ConnectionKind, KeptConnection, LeftOut, Role, Slope, Why, read_sheet,
};
use plotmark::plot::{Marked, Plot};
use plotmark::steps::Step;
use plotmark::terms::opposite;
use plotmark::text::{Colours, write};
use plotmark::words::{Driven, told};
use scenes::random::Random;
use scenes::sheets::{drawn, edits};

type Done = Result<(), Box<dyn Error>>;

const SHEETS: u64 = 10_000;

/// The last number of a name, as of "wire 6".
fn last(name: &str) -> u64 {
    let word = name.trim().rsplit(' ').next().unwrap_or_default();
    word.parse().unwrap_or_else(|_| panic!("no id in {name:?}"))
}

/// The ids of "wire 5 at 4,0,0, lamp 6 at 5,0,0".
fn placed(text: &str) -> BTreeSet<u64> {
    let names = text.split(" at ").zip(text.split(" at ").skip(1));
    names.map(|(name, _)| last(name)).collect()
}

/// The ids of "2 to 6, 9".
fn ids(text: &str) -> BTreeSet<u64> {
    let mut found = BTreeSet::new();
    for part in text.split(", ") {
        let (first, end) = part.split_once(" to ").unwrap_or((part, part));
        found.extend(last(first)..=last(end));
    }
    found
}

/// Sections by the first word of their titles.
fn sections(words: &str) -> BTreeMap<&str, Vec<&str>> {
    let blocks = words.split("\n\n").skip(1);
    let each = blocks.map(|block| {
        let mut lines = block.lines();
        let title = lines.next().unwrap_or_default();
        let word = title.split([' ', ',', ':']).next().unwrap_or_default();
        (word, lines.collect())
    });
    each.collect()
}

const STATUS: [&str; 4] = [
    "is driven",
    "waits for an input from outside",
    "has nothing connected",
    "is connected, but nothing drives what feeds it",
];

/// How many inputs a line tells of, and their verdict.
fn verdict(rest: &str) -> (usize, u64) {
    if let Some(sides) = rest.strip_prefix("s on its ") {
        let sides = sides.strip_suffix(" sides have nothing connected.");
        let sides = sides.unwrap_or_else(|| panic!("{rest}"));
        return (
            sides
                .split([',', ' '])
                .filter(|it| !["", "and"].contains(it))
                .count(),
            2,
        );
    }
    let is = |status: &&str| {
        [")", " side"]
            .iter()
            .any(|it| rest.ends_with(&format!("{it} {status}.")))
    };
    let status = STATUS.iter().position(is);
    (1, status.unwrap_or_else(|| panic!("{rest}")) as u64)
}

/// The verdicts, and the ways by device.
fn verdicts(lines: &[&str]) -> (Vec<Verdict>, Vec<Vec<u64>>) {
    let (mut found, mut ways): (Vec<Verdict>, Vec<Vec<u64>>) = (Vec::new(), Vec::new());
    for line in lines {
        let under = line.strip_prefix("      ");
        if let Some(verdict) = under.and_then(|_| found.last_mut()) {
            let line = line.trim();
            if let Some(fed) = line.strip_prefix("fed by ") {
                verdict.immediate = placed(fed);
            } else if let Some((_, many)) = line.split_once(" wires: ") {
                verdict.inferred = ids(many);
            } else if let Some(some) = line.strip_prefix("an input could be put at ") {
                verdict.inferred = placed(some);
            } else if let Some(way) = line.strip_prefix("the way: ") {
                ways.push(way.split(" > ").map(last).collect());
            }
        } else if let Some((name, rest)) = line.split_once(": its input") {
            let device = last(name.split(" at ").next().unwrap_or_default());
            let (count, status) = verdict(rest);
            let verdict = Verdict {
                device,
                status,
                immediate: BTreeSet::new(),
                inferred: BTreeSet::new(),
            };
            found.extend(std::iter::repeat_n(verdict, count));
        }
    }
    (found, ways)
}

fn hold_inputs(lines: &[&str], report: &Report, case: &str) -> usize {
    let (mut given, ways) = verdicts(lines);
    let driven = given
        .iter()
        .position(|it| it.status == 0)
        .unwrap_or(given.len());
    assert!(
        given.iter().skip(driven).all(|it| it.status == 0),
        "{case}: not driven first"
    );
    let devices: Vec<Verdict> = given.iter().skip(driven).cloned().collect();
    assert_eq!(
        ways.len(),
        devices.len(),
        "{case}: a way for each driven input"
    );
    for (way, verdict) in ways.iter().zip(&devices) {
        assert!(report.drives.contains(&way[0]), "{case}: {way:?}");
        assert_eq!(way.last(), Some(&verdict.device), "{case}: {way:?}");
        assert!(
            verdict.immediate.contains(&way[way.len() - 2]),
            "{case}: {way:?}"
        );
    }
    // Where an input could be put is told only of those that are not driven.
    let mut wanted = report.inputs.clone();
    for it in wanted.iter_mut().filter(|it| it.status == 0) {
        it.inferred.clear();
    }
    wanted.sort_unstable();
    given.sort_unstable();
    assert_eq!(given, wanted, "{case}");
    given.len()
}

fn hold_regions(lines: &[&str], report: &Report, rings: &[bool], case: &str) {
    assert_eq!(lines.len(), report.regions.len(), "{case}");
    for (place, (line, [cyclic, has_drive])) in lines.iter().zip(&report.regions).enumerate() {
        let (number, rest) = line.trim().split_once(' ').unwrap_or_default();
        assert_eq!(number, place.to_string(), "{case}");
        let (names, says) = rest.split_once(": ").unwrap_or_default();
        let given = ids(names);
        let here = report
            .components
            .iter()
            .filter(|(_, it)| it[2] == place as u64);
        let wanted: BTreeSet<u64> = here.clone().map(|(id, _)| *id).collect();
        assert_eq!(given, wanted, "{case}: region {place}");
        let lit: BTreeSet<u64> = here.map(|(_, it)| it[3] + it[4]).collect();
        let state = ["not driven", "would be driven by an input", "driven"];
        let state = lit
            .iter()
            .map(|it| state[usize::try_from(*it).unwrap_or(0)]);
        let state: Vec<&str> = state.collect();
        assert_eq!(
            says.split(", ").next(),
            state.first().copied(),
            "{case}: {line}"
        );
        assert_eq!(state.len(), 1, "{case}: {line}");
        assert_eq!(
            says.contains("a source is in it"),
            *has_drive == 1,
            "{case}: {line}"
        );
        let ring = says.contains(", a ring");
        assert_eq!(ring, rings[place], "{case}: {line}");
        assert_eq!(
            ring || says.contains("(no ring)"),
            *cyclic == 1,
            "{case}: {line}"
        );
    }
}

/// A connection as a line tells it, beside what stands there in the sheet.
fn hold_left_out(lines: &[&str], text: &str, count: usize, case: &str) {
    assert_eq!(lines.len(), count, "{case}");
    let sheet: Vec<&str> = text.lines().collect();
    let mut seen = BTreeSet::new();
    for line in lines {
        let (number, rest) = line
            .trim()
            .strip_prefix("sheet line ")
            .and_then(|it| it.split_once(": "))
            .unwrap_or_default();
        let (source, rest) = rest.split_once(" to ").unwrap_or_default();
        let sink = rest.split(' ').next().unwrap_or_default();
        let place: usize = number.parse().unwrap_or_default();
        let there = sheet.get(place - 1).copied().unwrap_or_default();
        let short = format!("n={source},{sink},");
        let old = [format!("source={source}"), format!("sink={sink}")];
        let is_old = there == old[0] && sheet.get(place).is_some_and(|it| *it == old[1]);
        assert!(
            there.starts_with(&short) || is_old,
            "{case}: {line}: {there}"
        );
        assert!(seen.insert(place), "{case}: {line} twice");
    }
}

#[test]
fn words_say_what_the_report_says() -> Done {
    let (mut inputs, mut left, mut regions) = (0, 0, 0);
    for seed in 0..SHEETS {
        let sheet = drawn::sheet(seed);
        let case = format!("sheet {seed}");
        let text = String::from_utf8(sheet.text)?;
        let marked = Marked::read(text.as_bytes())?;
        let words = write(&told("it", &marked, Driven::All), Colours::Off);
        let report = String::from_utf8(dustroute::report(text.as_bytes())?)?;
        let report = Report::of(&report).ok_or("no report")?;
        let read = read_sheet(text.as_bytes())?;
        let out = read.connections.len() - report.kept;
        let head = words.lines().next().unwrap_or_default();
        assert!(
            head.starts_with(&format!("it: marked by rules {} (", sheet.rules)),
            "{head}"
        );
        let sections = sections(&words);
        inputs += hold_inputs(&sections["Inputs"], &report, &case);
        hold_regions(&sections["Regions"], &report, &marked.rings.rings, &case);
        hold_left_out(&sections["Connections"], &text, out, &case);
        let unread = sections.get("Devices").map_or(0, Vec::len);
        assert_eq!(unread, report.unread.len(), "{case}");
        left += out;
        regions += report.regions.len();
    }
    println!("{SHEETS} sheets in words: {inputs} inputs, {regions} regions, {left} left out");
    assert!(inputs > 10_000 && left > 10_000);
    Ok(())
}

/// What `--input` asks of one device is what is marked of the whole plot, and the sides
/// of words are those of ports.
#[test]
fn one_device_is_told_as_in_the_whole() -> Done {
    let mut count = 0;
    for seed in 0..SHEETS / 2 {
        let text = drawn::sheet(seed).text;
        let (plot, marked) = (Plot::read(&text)?, Marked::read(&text)?);
        let mut found = Vec::new();
        for block in &plot.sheet.components {
            found.extend(plot.asked(block)?);
        }
        assert_eq!(found, marked.inputs, "sheet {seed}");
        assert!(plot.block(ComponentId(u32::MAX - 7)).is_none());
        count += found.len();
    }
    println!("{count} inputs asked one by one");
    assert!(count > 5_000);
    Ok(())
}

fn step(plot: &Plot, source: ComponentId, sink: ComponentId) -> Option<Step> {
    let (source, sink) = (plot.block(source)?, plot.block(sink)?);
    Step::between(source.position, sink.position)
}

/// A connection that was kept, beside its ports and its slope.
fn hold_kept(plot: &Plot, it: &KeptConnection, case: &str) -> Done {
    let [from, to] = [it.connection.source, it.connection.sink];
    let step = step(plot, from.component, to.component).ok_or("kept without a step")?;
    let faces = [from, to].map(|port| plot.port(port).map(|it| it.face));
    let wanted = [step.face, opposite(step.face)].map(Some);
    assert_eq!(faces, wanted, "{case}");
    let climbs = [Slope::Level, Slope::Rising, Slope::Falling];
    assert_eq!(
        it.slope,
        climbs[usize::try_from(step.climb.rem_euclid(3))?],
        "{case}"
    );
    Ok(())
}

/// A connection that was left out, beside the ports that are not there.
fn hold_side(plot: &Plot, it: &LeftOut, case: &str) -> Done {
    let [source, sink] = [it.connection.source, it.connection.sink];
    let step = step(plot, source, sink);
    let (id, face, fits) = match (it.why, step) {
        (Why::NoOutput, Some(step)) => {
            (source, step.face, &[Role::Output, Role::Bidirectional][..])
        }
        (Why::NoInput, Some(step)) if it.connection.kind == ConnectionKind::Control => {
            (sink, opposite(step.face), &[Role::Control][..])
        }
        (Why::NoInput, Some(step)) => {
            let roles = &[Role::Input, Role::Bidirectional, Role::Control][..];
            (sink, opposite(step.face), roles)
        }
        (Why::NoOutput | Why::NoInput, None) => return Err("no step".into()),
        (Why::NoStep, step) => {
            assert_eq!(step, None, "{case}");
            return Ok(());
        }
        _ => return Ok(()),
    };
    let ports = plot.ports(plot.block(id).ok_or("no block")?)?;
    let mut there = ports.iter().filter(|port| port.face == face);
    assert!(!there.any(|port| fits.contains(&port.role)), "{case}: {it}");
    Ok(())
}

/// The sides that words and picture name are those of the core: of the ports that a kept
/// connection uses, and of those that a block has not where one was left out.
#[test]
fn sides_are_those_of_the_core() -> Done {
    let mut counts = [0_u64; 8];
    for seed in 0..SHEETS {
        let plot = Plot::read(&drawn::sheet(seed).text)?;
        let case = format!("sheet {seed}");
        for it in &plot.kept {
            hold_kept(&plot, it, &case)?;
            counts[0] += 1;
        }
        for it in &plot.left_out {
            hold_side(&plot, it, &case)?;
            let why = Why::ALL.iter().position(|why| *why == it.why);
            counts[1 + why.ok_or("a reason")?] += 1;
        }
    }
    println!("kept, and left out by reason: {counts:?}");
    assert!(counts.iter().all(|count| *count > 100));
    Ok(())
}

/// Whatever is done to a sheet, it is marked or gets one line of words, in which nothing
/// of the sheet reaches a terminal as it is.
#[test]
fn damaged_sheets_are_told_in_a_line() -> Done {
    let (mut marked, mut refused) = (0, 0);
    for seed in 0..SHEETS / 2 {
        let text = drawn::sheet(seed).text;
        let random = &mut Random::new(seed);
        let edit = edits::drawn(&text, random);
        let text = edit.apply(&text);
        let Err(refusal) = Marked::read(&text) else {
            marked += 1;
            continue;
        };
        let told = plotmark::refused::refused("it", &text, refusal);
        let number = refusal.reason.number();
        let begins = format!("it: not marked (refusal {number}). ");
        assert!(
            told.starts_with(&begins) && told.ends_with('.'),
            "sheet {seed}: {told}"
        );
        assert!(!told.contains(char::is_control), "sheet {seed}: {told:?}");
        assert!(
            (begins.len() + 10..500).contains(&told.len()),
            "sheet {seed}: {told}"
        );
        refused += 1;
    }
    println!("damaged sheets: {marked} marked, {refused} refused");
    assert!(marked > 100 && refused > 1_000);
    Ok(())
}
