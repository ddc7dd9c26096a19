//! Reports by the proved entry against those that are printed of the unchanged
//! Rust's answers, byte for byte, on accepted sheets; slices that are too
//! short among those lent.

use std::io;
use std::path::PathBuf;

use checks::runs::{self, Seeds};
use checks::{Counted, Sheets};
use probe::Refusal;
use probe::report::report;
use scenes::limits::{COMPONENT, COMPONENTS, CONNECTION, FRONTIER};
use scenes::sheets::{Limits, lists, sheet_of, within};
use scenes::{Profile, Scene};

/// Accepted where the slices are enough, else 2; nothing else.
fn assert_all_reported(sheets: &Sheets, at_least: usize, title: &str) {
    sheets.assert_numbers_came_up(&[0, 2], title);
    let refused = [1, 3, 4, 5, 6, 9, 11, 12].map(|number| sheets.count_of(number));
    assert_eq!(refused, [0; 8], "{title}");
    assert!(sheets.sheets() >= at_least, "{title}");
}

/// Limits that the scene's lists reach exactly.
fn just_enough(scene: &Scene) -> Limits {
    let [components, connections, frontiers] = lists(scene).map(Vec::len);
    Limits {
        components: (components / COMPONENT) as u64,
        connections: (connections / CONNECTION) as u64,
        frontiers: (frontiers / FRONTIER) as u64,
    }
}

/// Limits that the scene keeps to, in turn.
fn limits(scene: &Scene, turn: u64) -> Limits {
    match turn % 3 {
        0 => Limits::SCENE,
        1 => Limits::NONE,
        _ => just_enough(scene),
    }
}

/// The sheets that come with a report.
#[test]
fn on_the_examples() -> io::Result<()> {
    let mut sheets = Sheets::new(report);
    let folder = PathBuf::from(env!("CARGO_MANIFEST_DIR")).join("../../examples");
    for entry in folder.read_dir()? {
        let path = entry?.path();
        if path
            .extension()
            .is_some_and(|it| it == "sheet" || it == "short")
        {
            let text = std::fs::read(&path)?;
            sheets.sheet_with_every_length(&text, Limits::PROGRAM, &path.display());
        }
    }
    assert_all_reported(&sheets, 6, "reports, examples");
    Ok(())
}

#[test]
fn on_every_small_scene() {
    let mut sheets = Sheets::new(report);
    runs::on_small_scenes(|scene, case| sheets.sheet(&sheet_of(scene), Limits::SCENE, &case));
    assert_all_reported(&sheets, 93_536, "reports, small scenes");
}

#[test]
fn on_every_profile() {
    let mut sheets = Sheets::new(report);
    let seeds = Seeds {
        small: 1_200,
        large: 8,
    };
    runs::on_profiles(seeds, |scene, seed, case| {
        sheets.sheet(&sheet_of(scene), limits(scene, seed), &case);
    });
    assert_all_reported(&sheets, 12_032, "reports, profiles");
}

/// Scenes as large as the program takes them.
#[test]
fn on_scenes_within_the_limits_of_the_program() {
    let mut sheets = Sheets::new(report);
    let limits = Limits::PROGRAM;
    let seeds = Seeds {
        small: 0,
        large: 60,
    };
    runs::on_profiles(seeds, |scene, _, case| {
        sheets.sheet(&sheet_of(&within(limits, scene)), limits, &case);
    });
    runs::on_plots(&[8, 64, 128, 255, 256], 12, |scene, case| {
        sheets.sheet(&sheet_of(&within(limits, scene)), limits, &case);
    });
    assert_all_reported(&sheets, 540, "reports, limits of the program");
}

#[test]
fn on_full_plots() {
    let mut sheets = Sheets::new(report);
    let sizes = [512, COMPONENTS - 1, COMPONENTS];
    runs::on_plots(&sizes, 2, |scene, case| {
        sheets.sheet(&sheet_of(scene), Limits::SCENE, &case);
    });
    assert_all_reported(&sheets, 30, "reports, full plots");
}

#[test]
fn with_slices_of_every_length() {
    let mut sheets = Sheets::new(report);
    let seeds = Seeds {
        small: 60,
        large: 1,
    };
    runs::on_profiles(seeds, |scene, _, case| {
        sheets.sheet_with_every_length(&sheet_of(scene), Limits::SCENE, &case);
    });
    assert_all_reported(&sheets, 604, "reports, slices of every length");
}

/// Every list at its limit and every number as long as it can be.
#[test]
fn on_the_longest_sheet() {
    let mut scene = Profile::Full.scene(5);
    for (place, record) in scene.components.chunks_exact_mut(COMPONENT).enumerate() {
        record[0] = 4_294_967_295 - i64::try_from(place).unwrap_or(0);
        record[1] = -30_000_000;
        record[2] = -30_000_000;
        record[3] = i64::try_from(place).unwrap_or(0) - 30_000_000;
    }
    for record in scene.connections.chunks_exact_mut(CONNECTION) {
        let [source, sink] = [record[0], record[1]].map(|id| 4_294_967_295 - id % 1_024);
        record.copy_from_slice(&[source, sink, record[2]]);
    }
    let (rows, _) = scene.connections.as_chunks::<CONNECTION>();
    let mut rows = rows.to_vec();
    rows.sort_unstable();
    rows.dedup();
    scene.connections = rows.concat();
    let text = sheet_of(&scene);
    println!("{} bytes", text.len());
    let mut sheets = Sheets::new(report);
    sheets.sheet_with_every_length(&text, Limits::SCENE, &"longest sheet");
    assert_all_reported(&sheets, 1, "reports, longest sheet");
}

/// What the entry answers to a sheet, and the buffer it leaves.
fn reported(text: &[u8]) -> (Result<u64, Refusal>, Vec<u8>) {
    let mut components = vec![0; COMPONENTS * COMPONENT];
    let mut connections = vec![0; 4 * COMPONENTS * CONNECTION];
    let mut frontiers = vec![0; COMPONENTS / 4 * FRONTIER];
    let mut out = vec![0; 1 << 20];
    let work = [
        &mut components[..],
        &mut connections[..],
        &mut frontiers[..],
    ];
    let answer = report(text, [1_024, 4_096, 256], work, &mut out);
    (answer, out)
}

/// The thread runs the entry and nothing else; what it must answer is found
/// outside.
#[test]
fn on_a_small_stack() -> io::Result<()> {
    let mut sheets = Sheets::new(report);
    for seed in 0..3 {
        let text = sheet_of(&Profile::Full.scene(seed));
        sheets.sheet(&text, Limits::SCENE, &"full plot");
        let expected = reported(&text);
        assert!(expected.0.is_ok());
        runs::within_one_mebibyte_of_stack(move || assert!(reported(&text) == expected))?;
    }
    assert_all_reported(&sheets, 3, "reports, small stack");
    Ok(())
}
