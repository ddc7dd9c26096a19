//! Refusals in words: of every refused example, of edited sheets and of damaged lists.
//! What is told of the place must be what stands there.

mod typed;

use std::collections::BTreeMap;
use std::{fs, io};

use dustroute::{
    BlockKind, Component, ComponentId, Given, List, Place, Position, Reason, Refusal, Rules,
    groups, liveness, read_sheet,
};
use scenes::damage::single;
use scenes::random::Random;
use scenes::sheets::{drawn, edits, fields};
use scenes::{Profile, Scene};
use typed::Lists;

fn told(text: &[u8]) -> String {
    match read_sheet(text) {
        Ok(_) => String::new(),
        Err(refusal) => refusal.explain(text),
    }
}

/// Every sheet that is refused in `examples/` with its words.
#[test]
fn refused_examples_are_told() -> io::Result<()> {
    let folder = concat!(env!("CARGO_MANIFEST_DIR"), "/../../examples/refused/");
    let mut count = 0;
    for (name, wanted) in WANTED {
        let text = fs::read(format!("{folder}{name}.sheet"))?;
        assert_eq!(told(&text), wanted, "{name}");
        count += 1;
    }
    let sheets = fs::read_dir(folder)?.filter_map(Result::ok);
    let sheets = sheets.filter(|it| it.path().extension().is_some_and(|it| it == "sheet"));
    assert_eq!(sheets.count(), count);
    Ok(())
}

const WANTED: [(&str, &str); 33] = [
    (
        "components-out-of-order",
        "component number 2 (id 2, lines 10 to 17): it belongs before component number 1 (id 1, lines 2 to 9), since they rise by x, then y, then z, then id",
    ),
    (
        "components-over-limit",
        "line 2 is missing: `id=` of component number 1 belongs there",
    ),
    (
        "connection-twice",
        "connection number 2 (1 to 2, lines 22 to 24): it is the same as the one before it, connection number 1 (1 to 2, lines 19 to 21)",
    ),
    (
        "connections-out-of-order",
        "connection number 2 (1 to 2, lines 22 to 24): it belongs before connection number 1 (2 to 1, lines 19 to 21), since they rise by source, then sink, then kind",
    ),
    (
        "connections-over-limit",
        "line 3 is missing: `source=` of connection number 1 belongs there",
    ),
    (
        "count-too-high",
        "line 18 (`connections=1`): `id=` of component number 3 belongs there",
    ),
    (
        "count-too-low",
        "line 10 (`id=2`): `connections=` belongs there, by the count of components in line 1",
    ),
    ("empty", "the sheet is empty"),
    (
        "extra-line",
        "line 23 (empty) is one too many: by its counts the sheet ends before it",
    ),
    (
        "frontier-out-of-range",
        "frontier number 1 (at 0,-30000001,0, lines 23 to 25): line 24, `y=-30000001`, is not within -30000000 to 30000000",
    ),
    (
        "frontiers-over-limit",
        "line 3 (`frontiers=257`): at most 256 are taken",
    ),
    (
        "id-used-twice",
        "component number 2 (id 1, lines 10 to 17): component number 1 (id 1, lines 2 to 9) has the id 1 too",
    ),
    (
        "key-order",
        "line 3 (`y=0`): `x=` of component number 1 belongs there",
    ),
    (
        "leading-zero",
        "line 2 (`id=01`): the number has a leading zero",
    ),
    ("minus-zero", "line 3 (`x=-0`): 0 has no minus"),
    (
        "missing-line",
        "line 8 (`conducts=0`): `support=` of component number 1 belongs there",
    ),
    (
        "negative-count",
        "line 1 (`components=-1`): a count is not negative",
    ),
    (
        "negative-rules",
        "line 1 (`rules=-1`): the rules that are known are 1, 2 and 3",
    ),
    (
        "no-last-line-end",
        "line 22 (`frontiers=0`): the last line does not end in a line feed",
    ),
    (
        "out-of-range",
        "component number 2 (id 2, lines 10 to 17): line 11, `x=30000001`, is not within -30000000 to 30000000",
    ),
    ("plus-sign", "line 11 (`x=+1`): a number has no plus"),
    (
        "rules-with-a-leading-zero",
        "line 1 (`rules=01`): the number has a leading zero",
    ),
    (
        "rules-zero",
        "line 1 (`rules=0`): the rules that are known are 1, 2 and 3",
    ),
    (
        "short-number-missing",
        "line 5 (`c=2,1,0,0,1,2,0`): it has 7 numbers between commas, not 8",
    ),
    (
        "short-number-too-many",
        "line 7 (`n=1,2,5,0`): it has 4 numbers between commas, not 3",
    ),
    (
        "short-other-letter",
        "line 7 (`c=1,2,5`): connection number 1 belongs there, `n=` with 3 numbers",
    ),
    (
        "too-large-a-number",
        "line 2 (`id=4294967296`): the number is beyond 4294967295",
    ),
    (
        "unknown-connection-kind",
        "connection number 1 (1 to 2, lines 19 to 21): line 21, `kind=10`, is not within 0 to 9",
    ),
    (
        "unknown-form",
        "line 1 (`sheet=3`): the forms that are known are `sheet=2` and the old one, which has no such line",
    ),
    (
        "unknown-rules",
        "line 1 (`rules=4`): the rules that are known are 1, 2 and 3",
    ),
    (
        "unknown-rules-short",
        "line 2 (`rules=4`): the rules that are known are 1, 2 and 3",
    ),
    (
        "windows-line-ends",
        "line 1 ends in CR LF, as Windows writes it; save the sheet with LF line ends",
    ),
    (
        "wrong-key",
        "line 3 (`X=0`): `x=` of component number 1 belongs there",
    ),
];

/// A sheet of a lever, and what other programs make of it when they save it.
#[test]
fn files_that_were_saved_otherwise() {
    let plain = "components=1\nid=1\nx=0\ny=0\nz=0\nkind=4\nfacing=0\nsupport=0\nconducts=0\n\
        connections=0\nfrontiers=0\n";
    assert_eq!(told(plain.as_bytes()), "");
    let bom = format!("\u{feff}{plain}");
    assert_eq!(
        told(bom.as_bytes()),
        "line 1: the file begins with a byte order mark; save it as UTF-8 without one"
    );
    let windows = plain.replace('\n', "\r\n");
    assert_eq!(
        told(windows.as_bytes()),
        "line 1 ends in CR LF, as Windows writes it; save the sheet with LF line ends"
    );
    let wide = "line 1: the file is UTF-16; save it as UTF-8 without a byte order mark";
    let units = || plain.encode_utf16();
    let little: Vec<u8> = units().flat_map(u16::to_le_bytes).collect();
    let big: Vec<u8> = units().flat_map(u16::to_be_bytes).collect();
    for text in [
        [b"\xff\xfe", &little[..]].concat(),
        [b"\xfe\xff", &big[..]].concat(),
        little,
        big,
    ] {
        assert_eq!(told(&text), wide);
    }
    let cut = plain.trim_end();
    assert_eq!(
        told(cut.as_bytes()),
        "line 11 (`frontiers=0`): the last line does not end in a line feed"
    );
    let old_mac = plain.replace('\n', "\r");
    assert_eq!(
        told(old_mac.as_bytes()),
        "line 1 (`components=1\\rid=1\\rx=0\\ry=0\\rz=0\\rkind=4\\rfac...`) has a CR in it; \
            save the sheet with LF line ends"
    );
}

/// Whether words name the line or the item at which a sheet was refused, from 1, and
/// say more of it than that it is wrong.
fn hold(refusal: Refusal, text: &[u8], case: &str) -> String {
    let said = refusal.explain(text);
    let Some(Place { list, item }) = refusal.place else {
        panic!("{case}: {refusal}");
    };
    let wanted = match (list, refusal.reason) {
        (List::Lines, _) if text.is_empty() => "the sheet is empty".to_string(),
        (List::Lines, _) => format!("line {}", item + 1),
        (_, Reason::Length) => "line ".to_string(),
        (List::Components, _) => format!("component number {} (id ", item + 1),
        (List::Connections, _) => format!("connection number {} (", item + 1),
        (List::Frontiers, _) => format!("frontier number {} (at ", item + 1),
    };
    assert!(said.starts_with(&wanted), "{said}, not {wanted}, {case}");
    assert!(
        !said.contains("not the line that belongs there"),
        "{said}, {case}"
    );
    assert!(!said.contains("refusal"), "{said}, {case}");
    said
}

/// The words with all that is of one sheet alone left out.
fn kind_of(said: &str) -> String {
    let said = said.rsplit(": ").next().unwrap_or_default();
    let mut out: Vec<String> = Vec::new();
    for word in said.split(' ') {
        let is_own = word.starts_with(|it: char| !it.is_alphabetic()) || word.contains('`');
        out.push(if is_own {
            "_".to_string()
        } else {
            word.to_string()
        });
    }
    out.join(" ")
}

/// Edits of bytes, lines, heads and records of sheets of either form.
#[test]
fn edited_sheets_are_told_at_their_place() {
    let mut kinds: BTreeMap<String, u64> = BTreeMap::new();
    let mut refused = 0;
    for seed in 0..30_000 {
        let sheet = drawn::sheet(400_000 + seed);
        let random = &mut Random::new(seed);
        let some = [fields::of_heads(), fields::of_records(&sheet.text)].concat();
        let edit = match some.get(random.below(4 * some.len())) {
            Some(edit) => *edit,
            None => edits::drawn(&sheet.text, random),
        };
        let text = edit.apply(&sheet.text);
        if let Err(refusal) = read_sheet(&text) {
            let case = format!("sheet seed {} {edit:?}", 400_000 + seed);
            let said = hold(refusal, &text, &case);
            *kinds.entry(kind_of(&said)).or_default() += 1;
            refused += 1;
        }
    }
    println!("told of {refused} edited sheets: {kinds:#?}");
    assert!(refused > 10_000);
}

/// Lists that were damaged: an item is told by its id or its ends.
#[test]
fn damaged_lists_are_told_at_their_item() {
    let mut by_number = [0_u64; 8];
    let mut hold = |refusal: Option<Refusal>, given: Given<'_>, case: &str| {
        let Some(refusal) = refusal else { return };
        let said = refusal.explain(given);
        assert!(!said.contains("refusal"), "{said}, {case}");
        by_number[usize::from(refusal.reason.number())] += 1;
    };
    for profile in Profile::ALL {
        let seeds = if profile.is_large() { 2 } else { 30 };
        for seed in 80_000..80_000 + seeds {
            let scene = profile.scene(seed);
            for damage in single(&scene) {
                let damaged: Scene = damage.apply(&scene);
                let Some(lists) = Lists::of(&damaged) else {
                    continue;
                };
                let case = format!("{} seed {seed} {damage:?}", profile.name());
                let Lists {
                    components,
                    connections,
                    ports,
                    frontiers,
                } = &lists;
                let grouped = Given::Lists {
                    components,
                    connections,
                    frontiers,
                };
                hold(
                    groups(Rules::Two, components, connections).err(),
                    grouped,
                    &case,
                );
                let fed = Given::Ports {
                    components,
                    connections: ports,
                    frontiers,
                };
                hold(
                    liveness(Rules::Two, components, ports, frontiers).err(),
                    fed,
                    &case,
                );
            }
        }
    }
    println!("told of damaged lists, by number {by_number:?}");
    assert!(
        [1, 3, 4, 5, 6, 7]
            .iter()
            .all(|&number| by_number[number] > 50)
    );
}

/// A refusal can be made up, and told of what it never was about.
#[test]
fn what_does_not_belong_together_is_told_as_well() {
    let lever = Component::new(ComponentId(1), Position::default(), BlockKind::Lever);
    let lists = Given::Lists {
        components: &[lever],
        connections: &[],
        frontiers: &[],
    };
    let texts: [&[u8]; 4] = [b"", b"sheet=2\n", b"components=9\nid=1\n", b"rules=2\n\n\n"];
    let reasons = (0..=19_u64).filter_map(|number| Refusal::of(number + 256 * 3));
    for Refusal { reason, .. } in reasons {
        for list in [
            List::Components,
            List::Connections,
            List::Frontiers,
            List::Lines,
        ] {
            for item in [0, 1, 8, usize::MAX / 8, usize::MAX - 1, usize::MAX] {
                let place = Some(Place { list, item });
                let refusal = Refusal { reason, place };
                assert!(!refusal.explain(lists).is_empty());
                for text in texts {
                    assert!(!refusal.explain(text).is_empty());
                }
            }
        }
        let refusal = Refusal {
            reason,
            place: None,
        };
        assert!(!refusal.explain(lists).is_empty());
    }
}
