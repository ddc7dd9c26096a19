//! Refusals of the proved report of a sheet against the restatement, and what
//! each leaves of the slices: 9, 1 and a short work list change nothing; a
//! refusal of the lists, or of a short buffer, leaves the work lists zero.

use checks::Sheets;
use checks::runs::{self, Seeds};
use probe::report::report;
use scenes::damage::{List, single};
use scenes::random::Random;
use scenes::sheets::edits::{self, Edit};
use scenes::sheets::{Limits, sheet_of, within, write_sheet};
use scenes::{Profile, Scene, exhaustive};

/// Small sheets: nothing at all; a lever and a repeater; a wire far off, with
/// long numbers; and wires in a row, three records to each list.
fn small_sheets() -> [Vec<u8>; 4] {
    let lever_and_repeater = [1, 0, 0, 0, 4, 0, 0, 0, 2, 1, 0, 0, 1, 2, 0, 0];
    let far = [4_294_967_295, -30_000_000, 0, 30_000_000, 0, 0, 0, 0];
    let wire = |id, x| [id, x, 0, 0, 0, 0, 0, 0];
    let row = [wire(1, -1), wire(3, 0), wire(2, 1)].concat();
    [
        write_sheet(&[], &[], &[]),
        write_sheet(&lever_and_repeater, &[1, 2, 5], &[]),
        write_sheet(&far, &[10, 4_294_967_295, 9], &far[1..4]),
        write_sheet(&row, &[1, 3, 0, 1, 3, 1, 3, 2, 0], &[0; 9]),
    ]
}

/// The limits of a scene, of the program, and some that small sheets pass.
const LIMITS: [Limits; 4] = [
    Limits::SCENE,
    Limits::PROGRAM,
    Limits::NONE,
    Limits {
        components: 2,
        connections: 2,
        frontiers: 1,
    },
];

const LISTS: [List; 3] = [List::Components, List::Connections, List::Frontiers];

/// Every byte left out, put in or made another, and every cut.
#[test]
fn on_every_edit_of_a_byte() {
    let mut sheets = Sheets::new(report);
    for text in small_sheets() {
        for (place, edit) in edits::of_bytes(&text).into_iter().enumerate() {
            let limits = LIMITS[place % LIMITS.len()];
            sheets.sheet(&edit.apply(&text), limits, &format!("{edit:?}"));
        }
    }
    let numbers = [0, 1, 2, 3, 4, 5, 6, 9];
    sheets.assert_numbers_came_up(&numbers, "sheets, edits of bytes");
}

/// Every rule of the lines broken once, and counts beside those of the lists.
#[test]
fn on_every_edit_of_a_line() {
    let mut sheets = Sheets::new(report);
    for text in small_sheets() {
        for limits in LIMITS {
            for edit in edits::of_lines(&text) {
                sheets.sheet(&edit.apply(&text), limits, &format!("{edit:?}"));
            }
        }
    }
    let numbers = [0, 1, 2, 3, 4, 5, 6, 9];
    sheets.assert_numbers_came_up(&numbers, "sheets, edits of lines");
}

/// A count over its limit, or not that of the records, and another fault
/// before or behind it.
#[test]
fn on_a_count_and_another_fault() {
    let mut sheets = Sheets::new(report);
    for text in small_sheets() {
        for (place, count) in edits::of_counts(&text).into_iter().enumerate() {
            let counted = count.apply(&text);
            let others = edits::of_lines(&counted);
            for edit in others.iter().skip(place % 31).step_by(31) {
                let case = format!("{count:?} {edit:?}");
                sheets.sheet(&edit.apply(&counted), Limits::PROGRAM, &case);
            }
        }
    }
    let numbers = [0, 1, 2, 3, 9];
    sheets.assert_numbers_came_up(&numbers, "sheets, a count and another fault");
}

#[test]
fn on_two_edits() {
    let mut sheets = Sheets::new(report);
    let seeds = Seeds {
        small: 300,
        large: 2,
    };
    runs::on_profiles(seeds, |scene, seed, case| {
        let random = &mut Random::new(seed);
        let text = sheet_of(&within(Limits::PROGRAM, scene));
        for _ in 0..4 {
            let first = edits::drawn(&text, random);
            let once = first.apply(&text);
            let second = edits::drawn(&once, random);
            let case = format!("{case} {first:?} {second:?}");
            sheets.sheet(&second.apply(&once), Limits::PROGRAM, &case);
        }
    });
    let numbers = [0, 1, 2, 3, 9];
    sheets.assert_numbers_came_up(&numbers, "sheets, two edits");
}

/// The lists damaged, with every length of the slices: a short work list comes
/// before a fault of the lists, a short buffer after it.
#[test]
fn on_damaged_lists_with_slices_of_every_length() {
    let mut sheets = Sheets::new(report);
    let seeds = Seeds { small: 1, large: 0 };
    let mut turn = 0_usize;
    runs::on_single_damage(seeds, &LISTS, |scene, case| {
        turn += 1;
        if turn.is_multiple_of(4) {
            sheets.sheet_with_every_length(&sheet_of(scene), Limits::SCENE, &case);
        }
    });
    let numbers = [0, 1, 2, 3, 4, 5, 6, 9];
    sheets.assert_numbers_came_up(&numbers, "sheets, damaged lists, slices of every length");
}

#[test]
fn on_every_single_damage_of_the_lists() {
    let mut sheets = Sheets::new(report);
    let seeds = Seeds { small: 5, large: 0 };
    runs::on_single_damage(seeds, &LISTS, |scene, case| {
        sheets.sheet(&sheet_of(scene), Limits::SCENE, &case);
    });
    let full = Profile::Full.scene(2);
    let damages = single(&full).into_iter();
    let damages = damages.filter(|it| LISTS.contains(&it.list));
    for damage in damages.step_by(19) {
        let case = format!("full plot, {damage:?}");
        sheets.sheet(&sheet_of(&damage.apply(&full)), Limits::SCENE, &case);
    }
    let numbers = [0, 1, 2, 3, 4, 5, 6, 9];
    sheets.assert_numbers_came_up(&numbers, "sheets, single damage of the lists");
}

/// Faults of two lists, and now and then one of a line besides.
#[test]
fn on_damaged_lists_and_an_edit() {
    let mut sheets = Sheets::new(report);
    let seeds = Seeds {
        small: 400,
        large: 1,
    };
    runs::on_two_faults(seeds, |scene, random, case| {
        let text = sheet_of(scene);
        let edit = if random.once_in(2) {
            Edit::Cut { place: text.len() }
        } else {
            edits::drawn(&text, random)
        };
        let case = format!("{case} {edit:?}");
        sheets.sheet(&edit.apply(&text), Limits::SCENE, &case);
    });
    let numbers = [0, 1, 2, 3, 4, 5, 6, 9];
    sheets.assert_numbers_came_up(&numbers, "sheets, damaged lists and an edit");
}

#[test]
fn on_small_lists_in_every_combination() {
    let mut sheets = Sheets::new(report);
    for (place, scene) in exhaustive::lists().enumerate().step_by(7) {
        let limits = LIMITS[place % LIMITS.len()];
        sheets.sheet(&sheet_of(&scene), limits, &format!("list {place}"));
    }
    let numbers = [0, 1, 2, 3, 4, 5, 6, 9];
    sheets.assert_numbers_came_up(&numbers, "sheets, small lists");
}

/// Counts at their limits, one below and one above, limits of 0 among them.
#[test]
fn at_every_limit() {
    let mut sheets = Sheets::new(report);
    let full = Profile::Full.scene(4);
    for limits in [Limits::SCENE, Limits::PROGRAM, LIMITS[3]] {
        for list in 0..3 {
            for below in [0, 1] {
                let mut least = limits.each();
                least[list] -= below;
                let [components, connections, frontiers] = least;
                let least = Limits {
                    components,
                    connections,
                    frontiers,
                };
                let text = sheet_of(&within(limits, &full));
                sheets.sheet(&text, least, &format!("list {list}, {below} below"));
            }
        }
    }
    let none = Limits {
        components: 0,
        connections: 0,
        frontiers: 0,
    };
    for text in small_sheets() {
        sheets.sheet(&text, none, &"limits of 0");
    }
    sheets.assert_numbers_came_up(&[0, 1], "sheets, at every limit");
}

/// Texts of pieces of a sheet, and of any bytes.
#[test]
fn on_garbage() {
    const PIECES: [&str; 16] = [
        "components=0\n",
        "connections=0\n",
        "frontiers=0\n",
        "components=1\n",
        "frontiers=1\n",
        "id=1\nx=0\ny=0\nz=0\n",
        "kind=0\nfacing=0\nsupport=0\nconducts=0\n",
        "source=1\nsink=1\nkind=0\n",
        "x=1\ny=1\nz=1\n",
        "connections=1\n",
        "=",
        "\n",
        "-",
        "0",
        "x",
        "\r",
    ];
    let mut sheets = Sheets::new(report);
    for seed in 0..30_000 {
        let random = &mut Random::new(seed);
        let mut text = Vec::new();
        for _ in 0..random.below(9) {
            text.extend_from_slice(random.pick(&PIECES).as_bytes());
        }
        if random.once_in(4) {
            text.extend((0..random.below(9)).map(|_| random.next().to_le_bytes()[0]));
        }
        sheets.sheet(&text, Limits::SCENE, &format!("garbage seed {seed}"));
    }
    let nothing = Scene::default();
    sheets.sheet(&sheet_of(&nothing), Limits::SCENE, &"nothing");
    sheets.sheet(b"", Limits::SCENE, &"empty text");
    sheets.assert_numbers_came_up(&[0, 9], "sheets, garbage");
}
