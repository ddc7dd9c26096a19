//! Two tables, one plot: parts of plots joined, sheets that have nothing to do
//! with each other, damaged ones and faults that compete, slices of every length;
//! with itself, with the empty plot, in either order, three in a row.

use std::io;

use checks::Joins;
use checks::runs::{self, Seeds};
use paper::join::Join;
use probe::sheets::join;
use scenes::limits::{FRONTIER, FRONTIERS, LAST_RULES};
use scenes::random::Random;
use scenes::sheets::drawn::{self, Drawn};
use scenes::sheets::edits;
use scenes::sheets::fields;
use scenes::sheets::forms::{Form, write_form};
use scenes::sheets::parts::{parts, renamed};
use scenes::sized::Shape;
use scenes::{Profile, Scene, damage};

/// Either form, one as often as the other.
fn form(random: &mut Random) -> Form {
    if random.once_in(2) {
        Form::Old
    } else {
        Form::Short
    }
}

/// The parts of a scene as sheets of either form.
fn tables(scene: &Scene, rules: i64, count: usize, random: &mut Random) -> Vec<Vec<u8>> {
    let parts = parts(scene, count, random);
    let texts = parts.iter().map(|it| write_form(form(random), rules, it));
    texts.collect()
}

/// Thirty thousand plots, each built at two tables: joined it is the plot's sheet.
#[test]
fn halves_of_plots_make_the_plot() {
    let mut joins = Joins::default();
    for seed in 0..30_000 {
        let random = &mut Random::new(seed);
        let Drawn { rules, scene, .. } = drawn::sheet(500_000 + seed);
        let halves = tables(&scene, rules, 2, random);
        let case = format!("halves seed {seed}");
        let joined = joins.pair([&halves[0], &halves[1]], &case);
        let whole = write_form(Form::Old, rules, &scene);
        assert!(joined == Some(whole), "{case}");
    }
    joins.assert_came_up(&[(0, &[2]), (1, &[2]), (2, &[2])], "halves of plots");
    assert!(joins.accepted() >= 30_000);
}

/// Plots at the library's limits.
#[test]
fn halves_of_full_plots_make_the_plot() {
    let mut joins = Joins::default();
    let full = (0..6).map(|seed| Profile::Full.scene(seed));
    let shaped = Shape::ALL.into_iter();
    let shaped = shaped.flat_map(|shape| (0..3).map(move |seed| shape.scene(1_024, seed)));
    for (seed, scene) in (0_u64..).zip(full.chain(shaped)) {
        let random = &mut Random::new(seed);
        let rules = 1 + seed.cast_signed() % LAST_RULES;
        let halves = tables(&scene, rules, 2, random);
        let case = format!("full plot {seed}");
        let joined = joins.pair([&halves[0], &halves[1]], &case);
        assert!(
            joined == Some(write_form(Form::Old, rules, &scene)),
            "{case}"
        );
    }
    joins.assert_came_up(&[], "halves of full plots");
}

/// A drawn sheet, and one that has nothing to do with it; now and then by other
/// rules, mostly with other ids.
fn strangers(seed: u64, random: &mut Random) -> [Drawn; 2] {
    let first = drawn::sheet(seed);
    let mut second = drawn::sheet(seed ^ random.next());
    if !random.once_in(12) {
        second.rules = first.rules;
    }
    if !random.once_in(3) {
        second.scene = renamed(&second.scene, &first.scene);
    }
    second.text = write_form(second.form, second.rules, &second.scene);
    [first, second]
}

#[test]
fn sheets_that_have_nothing_to_do_with_each_other() {
    let mut joins = Joins::default();
    for seed in 0..30_000 {
        let random = &mut Random::new(seed);
        let [first, second] = strangers(600_000 + seed, random);
        joins.pair([&first.text, &second.text], &format!("strangers {seed}"));
    }
    joins.assert_came_up(&[(0, &[2, 13, 14]), (1, &[2]), (2, &[2])], "strangers");
    assert!(joins.accepted() > 10_000);
}

/// One number of one half changed: where both have the block, 14 at the earliest.
#[test]
fn halves_in_which_a_field_was_changed() {
    let mut joins = Joins::default();
    for seed in 0..20_000 {
        let random = &mut Random::new(seed);
        let Drawn { rules, scene, .. } = drawn::sheet(700_000 + seed);
        let mut halves = parts(&scene, 2, random);
        for _ in 0..1 + random.below(2) {
            let half = &mut halves[random.below(2)];
            let list = random.below(9);
            let list = match list {
                0 => &mut half.frontiers,
                1 => &mut half.connections,
                _ => &mut half.components,
            };
            let place = random.below(list.len());
            if let Some(number) = list.get_mut(place) {
                *number += random.between(0, 1) * 2 - 1;
            }
        }
        let texts = [&halves[0], &halves[1]].map(|it| write_form(form(random), rules, it));
        joins.pair([&texts[0], &texts[1]], &format!("changed halves {seed}"));
    }
    let own: &[usize] = &[2, 3, 4, 5, 6];
    joins.assert_came_up(&[(0, &[2, 14]), (1, own), (2, own)], "changed halves");
}

/// The lists of a scene, damaged once or twice, and seldom an edit of the text.
fn damaged(sheet: &Drawn, random: &mut Random) -> Vec<u8> {
    let mut scene = sheet.scene.clone();
    if let Some([first, second]) = damage::pair(&scene, random) {
        scene = first.apply(&scene);
        if random.once_in(2) {
            scene = second.apply(&scene);
        }
    }
    edited(&write_form(sheet.form, sheet.rules, &scene), 4, random)
}

/// A text, once in so many times edited.
fn edited(text: &[u8], times: usize, random: &mut Random) -> Vec<u8> {
    if !random.once_in(times) {
        return text.to_vec();
    }
    let some = [fields::of_heads(), fields::of_records(text)].concat();
    match some.get(random.below(3 * some.len())) {
        Some(edit) => edit.apply(text),
        None => edits::drawn(text, random).apply(text),
    }
}

/// Every fault of the first sheet comes before any of the second, and those before
/// 13 and 14.
#[test]
fn faults_of_both_sheets() {
    let mut joins = Joins::default();
    for seed in 0..20_000 {
        let random = &mut Random::new(seed);
        let [first, second] = strangers(800_000 + seed, random);
        let texts = match random.below(4) {
            0 => [damaged(&first, random), second.text],
            1 => [first.text, damaged(&second, random)],
            2 => [damaged(&first, random), damaged(&second, random)],
            _ => [&first, &second].map(|it| edited(&it.text, 1, random)),
        };
        joins.pair([&texts[0], &texts[1]], &format!("damaged sheets {seed}"));
    }
    let own: &[usize] = &[1, 2, 3, 4, 5, 6, 9, 11, 12];
    joins.assert_came_up(&[(0, &[2, 13, 14]), (1, own), (2, own)], "damaged sheets");
}

#[test]
fn with_slices_of_every_length() {
    let mut joins = Joins::default();
    for seed in 0..2_000 {
        let random = &mut Random::new(seed);
        let case = format!("every length {seed}");
        let [first, second] = strangers(900_000 + seed, random);
        let texts = match random.below(4) {
            0 => [first.text, second.text],
            1 => [damaged(&first, random), damaged(&second, random)],
            2 => [first.text, damaged(&second, random)],
            _ => {
                let mut halves = tables(&first.scene, first.rules, 2, random).into_iter();
                [(); 2].map(|()| halves.next().unwrap_or_default())
            }
        };
        joins.pair_with_every_length([&texts[0], &texts[1]], &case);
    }
    let own: &[usize] = &[2, 3, 4, 5, 6, 9];
    joins.assert_came_up(
        &[(0, &[2, 13, 14]), (1, own), (2, own)],
        "joins, every length",
    );
}

/// Wires in a row, connections between missing blocks and frontiers, of these counts;
/// ids and cells from a number on.
fn row(counts: [i64; 3], from: i64) -> Scene {
    let ids = from..from + counts[0];
    let ends = from..from + counts[1];
    let cells = from..from + counts[2];
    Scene {
        components: ids.flat_map(|k| [k, k, 0, 0, 0, 0, 0, 1]).collect(),
        connections: ends.flat_map(|k| [k, 9, 0]).collect(),
        ports: Vec::new(),
        frontiers: cells.flat_map(|k| [k, 1, 1]).collect(),
    }
}

/// Joined lists at their limits and one over, in one list and in several; shared
/// records count once, but frontiers.
#[test]
fn joined_lists_at_their_limits() {
    const LIMITS: [i64; 3] = [1_024, 4_096, 256];
    let mut joins = Joins::default();
    let mut turn = 0_u64;
    for over in 0..8 {
        for shared in [0, 1, 5] {
            let random = &mut Random::new(turn);
            let wanted = [0, 1, 2].map(|list| LIMITS[list] + (over >> list & 1));
            let front = wanted.map(|count| random.between(shared + 1, count.min(250)));
            let first = row(front, 0);
            let mut second = row([0; 3], 0);
            let rest = [0, 1, 2].map(|list| wanted[list] - front[list] + shared);
            for (list, from) in front.into_iter().enumerate() {
                let part = row(rest, from - shared);
                match list {
                    0 => second.components = part.components,
                    1 => second.connections = part.connections,
                    _ => second.frontiers = part.frontiers,
                }
            }
            second
                .frontiers
                .drain(..usize::try_from(3 * shared).unwrap_or(0));
            let texts = [first, second].map(|it| write_form(form(random), 2, &it));
            let case = format!("{wanted:?} joined, {shared} shared");
            let joined = joins.pair([&texts[0], &texts[1]], &case);
            assert_eq!(joined.is_some(), over == 0, "{case}");
            turn += 1;
        }
    }
    joins.assert_came_up(&[(0, &[1])], "joined lists at their limits");
}

/// With itself: the sheet in the old form, its frontiers twice, or 1. With the empty plot,
/// on either side: the sheet in the old form.
#[test]
fn with_itself_and_with_the_empty_plot() {
    let (mut joins, mut unfit) = (Joins::default(), 0_u64);
    for seed in 0..8_000 {
        let sheet = drawn::sheet(1_000_000 + seed);
        let random = &mut Random::new(seed);
        let case = format!("alone {seed}");
        let own = write_form(Form::Old, sheet.rules, &sheet.scene);
        let twice = Scene {
            frontiers: sheet.scene.frontiers.repeat(2),
            ..sheet.scene.clone()
        };
        let other = write_form(form(random), sheet.rules, &sheet.scene);
        let joined = joins.pair([&sheet.text, &other], &case);
        let is_whole = twice.frontiers.len() <= FRONTIERS * FRONTIER;
        let wanted = is_whole.then(|| write_form(Form::Old, sheet.rules, &twice));
        assert!(joined == wanted, "{case}");
        unfit += u64::from(!is_whole);
        let empty = write_form(form(random), sheet.rules, &Scene::default());
        for texts in [[&sheet.text[..], &empty], [&empty[..], &sheet.text]] {
            assert!(joins.pair(texts, &case).as_ref() == Some(&own), "{case}");
        }
    }
    println!("with itself: {unfit} have more than half the frontiers of a plot");
    assert!(unfit < 1_000);
    joins.assert_came_up(&[(0, &[1, 2])], "with itself, with the empty plot");
}

/// Slices that are enough, and no more said than whether they join.
fn joined(first: &[u8], second: &[u8]) -> Option<Vec<u8>> {
    let lent = Join::of(first, second).enough();
    let mut lists = [lent.components, lent.connections, lent.frontiers].map(|it| vec![0; it]);
    let mut out = vec![0; lent.out];
    let count = join(
        first,
        second,
        lists.each_mut().map(|it| &mut it[..]),
        &mut out,
    );
    count.ok().map(|_| out)
}

/// Three tables: whichever two are joined first, the same sheet or none. Without
/// frontiers the two may change places.
#[test]
fn three_in_a_row_and_in_either_order() {
    let [mut whole, mut none, mut turned] = [0_u64; 3];
    for seed in 0..8_000 {
        let random = &mut Random::new(seed);
        let Drawn {
            rules, mut scene, ..
        } = drawn::sheet(1_100_000 + seed);
        if random.once_in(3) {
            scene.frontiers.clear();
        }
        let mut three = tables(&scene, rules, 3, random);
        if random.once_in(3) {
            three[random.below(3)] = drawn::sheet(1_200_000 + seed).text;
        }
        let [a, b, c] = [&three[0], &three[1], &three[2]];
        let left = joined(a, b).and_then(|it| joined(&it, c));
        let right = joined(b, c).and_then(|it| joined(a, &it));
        assert!(left == right, "three tables {seed}");
        whole += u64::from(left.is_some());
        none += u64::from(left.is_none());
        let has_none = |it: &Vec<u8>| it.ends_with(b"\nfrontiers=0\n");
        if left.as_ref().is_some_and(has_none) {
            let other = joined(b, a).and_then(|it| joined(c, &it));
            assert!(other == left, "three tables turned {seed}");
            turned += 1;
        }
    }
    println!("three tables: {whole} joined either way, {none} not; {turned} turned round");
    assert!(whole > 4_000 && none > 1_000 && turned > 1_000);
}

/// Two sheets of any lists.
#[test]
fn on_garbage() {
    let mut joins = Joins::default();
    let mut before = write_form(Form::Short, 1, &Scene::default());
    runs::on_garbage(20_000, |scene, random, case| {
        let text = write_form(form(random), 1, scene);
        joins.pair([&before, &text], &case);
        before = text;
    });
    joins.assert_came_up(&[(0, &[14]), (1, &[3, 9]), (2, &[3, 9])], "joins, garbage");
}

/// Profiles with each other: the greatest plots too.
#[test]
fn on_profiles_one_after_the_other() {
    let mut joins = Joins::default();
    let mut before = Scene::default();
    let seeds = Seeds {
        small: 60,
        large: 6,
    };
    runs::on_profiles(seeds, |scene, seed, case| {
        let random = &mut Random::new(seed);
        let second = if random.once_in(2) {
            renamed(scene, &before)
        } else {
            scene.clone()
        };
        let texts = [&before, &second].map(|it| write_form(form(random), 3, it));
        joins.pair([&texts[0], &texts[1]], &case);
        before = scene.clone();
    });
    joins.assert_came_up(&[(0, &[1, 2, 14])], "joins, profiles");
}

/// The thread runs the entry and nothing else; what it must answer is found outside.
#[test]
fn on_a_small_stack() -> io::Result<()> {
    let scene = Profile::Full.scene(1);
    let random = &mut Random::new(1);
    let halves = tables(&scene, 3, 2, random);
    let pair = Join::of(&halves[0], &halves[1]);
    let lent = pair.enough();
    let wanted = write_form(Form::Old, 3, &scene);
    runs::within_one_mebibyte_of_stack(move || {
        let lengths = [lent.components, lent.connections, lent.frontiers];
        let mut lists = lengths.map(|it| vec![0; it]);
        let work = lists.each_mut().map(|list| &mut list[..]);
        let mut out = vec![0; lent.out];
        let count = join(&halves[0], &halves[1], work, &mut out);
        assert!(count == Ok(wanted.len() as u64) && out == wanted);
    })
}
