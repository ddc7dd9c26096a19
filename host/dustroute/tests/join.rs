//! Two sheets joined by the typed function, held to the restatement; what a
//! refusal says of the two, held to their own lines.

use std::io;
use std::path::PathBuf;

use dustroute::{Clash, JoinRefusal, List, Place, Refusal, WhichSheet, join, read_sheet, report};
use paper::join::Join;
use scenes::random::Random;
use scenes::sheets::drawn::{self, Drawn};
use scenes::sheets::edits;
use scenes::sheets::forms::{Form, write_form};
use scenes::sheets::parts::parts;
use scenes::{Profile, Scene};

/// Sheet, number, list and item, as the request has them.
fn plain(refused: JoinRefusal) -> [u64; 4] {
    let Refusal { reason, place, .. } = refused.refusal;
    let (list, item) = place.map_or((3, 0), |Place { list, item }| {
        let list = match list {
            List::Components => 0,
            List::Connections => 1,
            List::Frontiers => 2,
            List::Lines => 3,
        };
        (list, item as u64)
    });
    let sheet = u64::from(refused.sheet.number());
    [sheet, u64::from(reason.number()), list, item]
}

/// What stands on a line, from 0.
fn line(text: &[u8], number: usize) -> String {
    let text = String::from_utf8_lossy(text);
    text.lines().nth(number).unwrap_or_default().to_string()
}

/// Whether a component with this id begins on the line.
fn begins(text: &[u8], number: usize, id: u32) -> bool {
    let line = line(text, number);
    line == format!("id={id}") || line.starts_with(&format!("c={id},"))
}

/// 13 names the rules of each sheet, 14 the component on both, and no other refusal
/// anything.
fn hold_clash(refused: &JoinRefusal, [first, second]: [&[u8]; 2], case: &str) {
    let number = refused.refusal.reason.number();
    match refused.clash {
        None => assert!(![13, 14].contains(&number), "{case}"),
        Some(Clash::Rules {
            first: a,
            second: b,
        }) => {
            let rules = [first, second].map(|it| read_sheet(it).map(|it| it.rules));
            assert_eq!((number, rules), (13, [Ok(a), Ok(b)]), "{case}");
        }
        Some(Clash::Component(it)) => {
            assert_eq!(number, 14, "{case}");
            assert_eq!(it.first.id, it.second.id, "{case}");
            assert!(begins(first, it.first_line, it.first.id.0), "{case}");
            assert!(begins(second, it.second_line, it.second.id.0), "{case}");
            let item = refused.refusal.place.map(|it| it.item).unwrap_or_default();
            let [one, other] = [first, second].map(|it| read_sheet(it).map(|it| it.components));
            assert_eq!(other.map(|all| all[item]), Ok(it.second), "{case}");
            assert!(one.is_ok_and(|all| all.contains(&it.first)), "{case}");
            assert!(it.fields().next().is_some(), "{case}");
        }
        Some(_) => panic!("{case}: not known here"),
    }
}

/// Both sheets joined; the number of the refusal, 0 for none.
fn hold(texts: [&[u8]; 2], case: &str) -> usize {
    let pair = Join::of(texts[0], texts[1]);
    let wanted = pair.answer(&pair.enough()).0;
    let wanted = wanted.map_err(|it| {
        let scenes::Refusal { number, list, item } = it.refusal;
        [it.sheet, number, list, item]
    });
    let given = join(texts[0], texts[1]);
    if let Err(refused) = &given {
        hold_clash(refused, texts, case);
    }
    let given = given.map_err(plain);
    assert_eq!(given.as_deref(), wanted.as_deref(), "{case}");
    wanted.map_or_else(|it| usize::try_from(it[1]).unwrap_or(0), |_| 0)
}

/// A sheet of either form of each part; one of them may have other rules, or one
/// number changed.
fn texts(rules: i64, halves: &mut [Scene], random: &mut Random) -> Vec<Vec<u8>> {
    if random.once_in(2) {
        let half = &mut halves[random.below(2)];
        let place = random.below(half.components.len());
        if let Some(number) = half.components.get_mut(place) {
            *number ^= 1;
        }
    }
    let sheets = halves.iter().map(|half| {
        let form = if random.once_in(2) {
            Form::Old
        } else {
            Form::Short
        };
        let rules = if random.once_in(20) { 1 } else { rules };
        write_form(form, rules, half)
    });
    sheets.collect()
}

#[test]
fn halves_are_joined_or_refused_as_the_restatement_does() {
    let mut by_number = [0_u64; 15];
    for seed in 0..20_000 {
        let random = &mut Random::new(seed);
        let Drawn { rules, scene, .. } = drawn::sheet(40_000 + seed);
        let mut halves = parts(&scene, 2, random);
        let mut both = texts(rules, &mut halves, random);
        if random.once_in(5) {
            let text = &mut both[random.below(2)];
            *text = edits::drawn(text, random).apply(text);
        }
        by_number[hold([&both[0], &both[1]], &format!("typed halves {seed}"))] += 1;
    }
    println!("typed joins by number {by_number:?}");
    let all = [0, 3, 4, 5, 9, 13, 14];
    assert!(all.iter().all(|&it| by_number[it] > 0));
    assert_eq!([2, 7, 8, 10].map(|number| by_number[number]), [0; 4]);
}

/// Joined sheets longer than the first buffers.
#[test]
fn halves_of_full_plots_are_joined() {
    for seed in 0..4 {
        let random = &mut Random::new(seed);
        let scene = Profile::Full.scene(seed);
        let halves = parts(&scene, 2, random);
        let both: Vec<Vec<u8>> = halves
            .iter()
            .map(|it| write_form(Form::Short, 2, it))
            .collect();
        assert_eq!(hold([&both[0], &both[1]], &format!("full plot {seed}")), 0);
        let whole = join(&both[0], &both[1]);
        assert!(whole.is_ok_and(|it| it == write_form(Form::Old, 2, &scene)));
    }
}

#[test]
fn a_refusal_says_what_to_do() {
    let said = |first: &str, second: &str| match join(first.as_bytes(), second.as_bytes()) {
        Ok(text) => String::from_utf8_lossy(&text).into_owned(),
        Err(refusal) => refusal.to_string(),
    };
    let short = |rules: i64, blocks: &str| {
        let count = blocks.lines().count();
        format!("sheet=2\nrules={rules}\ncomponents={count}\n{blocks}connections=0\nfrontiers=0\n")
    };
    let left = short(2, "c=4,0,0,0,0,0,0,0\nc=7,1,0,0,1,1,6,0\n");
    let right = "rules=2\ncomponents=1\n\
        id=7\nx=1\ny=0\nz=0\nkind=2\nfacing=3\nsupport=6\nconducts=0\n\
        connections=0\nfrontiers=0\n";
    assert_eq!(
        said(&left, right),
        "the two sheets together: refusal 14 at item 0 of the components: \
         a component that both sheets have, with unequal fields: \
         id 7 (line 4 of the first sheet, line 2 of the second): \
         kind=1 and kind=2, facing=1 and facing=3"
    );
    assert_eq!(
        said(&left, &short(3, "")),
        "the two sheets together: refusal 13: the two sheets are marked by different rules: \
         rules 2 on the first sheet, rules 3 on the second"
    );
    assert_eq!(
        said(&left, "sheet=3\n"),
        "the second sheet: refusal 12 at line 0: a form of a sheet that is not known"
    );
    assert_eq!(
        said("components=1025\n", "sheet=3\n"),
        "the first sheet: refusal 1 at item 1024 of the components: \
         a list over its limit, or not whole records"
    );
}

fn example(name: &str) -> io::Result<Vec<u8>> {
    let folder = PathBuf::from(env!("CARGO_MANIFEST_DIR")).join("../../examples");
    std::fs::read(folder.join(name))
}

/// The two halves of a lesson under `examples/`, and the recorded sheet of both.
#[test]
fn the_halves_of_the_lesson_make_the_recorded_sheet() -> io::Result<()> {
    let whole = example("halves-joined.sheet")?;
    for left in ["left-half.sheet", "left-half.short"] {
        for right in ["right-half.sheet", "right-half.short"] {
            let joined = join(&example(left)?, &example(right)?);
            assert_eq!(joined.as_deref(), Ok(&whole[..]), "{left}, {right}");
        }
    }
    let told = report(&whole);
    assert_eq!(told.as_deref(), Ok(&example("halves-joined.report")?[..]));
    let typo = join(
        &example("left-half.sheet")?,
        b"sheet=2\nrules=1\ncomponents=x\n",
    );
    assert!(typo.is_err_and(|it| it.sheet == WhichSheet::Second && it.clash.is_none()));
    Ok(())
}
