//! A plot marked as a whole, held to the report of the same plot line by line, and its
//! refusals to those of the report.

#[expect(dead_code, reason = "port connections have no part in it")]
mod typed;

use std::collections::BTreeSet;
use std::fmt::{Display, Write};

use dustroute::{
    Component, ComponentId, KeptConnection, Mark, MarkedInput, Reason, Refusal, Rules, Scene,
    Sheet, mark, read_sheet, report,
};
use scenes::damage::{pair, single};
use scenes::random::Random;
use scenes::sheets::drawn;
use scenes::sheets::forms::{Form, write_form};
use scenes::sized::Shape;
use scenes::{Profile, blanks, exhaustive};
use typed::Lists;

/// Lines of keys and values. Writing to a string cannot fail.
fn lines<const COUNT: usize>(text: &mut String, row: [(&str, &dyn Display); COUNT]) {
    for (key, value) in row {
        let _ = writeln!(text, "{key}={value}");
    }
}

fn component(text: &mut String, mark: &Mark, place: usize, it: &Component) {
    let (groups, found) = (
        mark.groups.components[place],
        mark.liveness.components[place],
    );
    assert_eq!([groups.id, found.id], [it.id; 2]);
    lines(
        text,
        [
            ("id", &it.id.0),
            ("net", &groups.net),
            ("fragment", &groups.fragment),
            ("region", &found.region),
            ("drive", &u8::from(found.drive)),
            ("potential", &u8::from(found.potential)),
        ],
    );
}

fn kept(text: &mut String, it: &KeptConnection) {
    let (source, sink) = (it.connection.source, it.connection.sink);
    lines(
        text,
        [
            ("source", &source.component.0),
            ("source_port", &source.port),
            ("sink", &sink.component.0),
            ("sink_port", &sink.port),
            ("transfer", &(it.connection.transfer as u8)),
            ("slope", &(it.slope as u8)),
        ],
    );
}

fn input(text: &mut String, it: &MarkedInput) {
    let ids = |set: &BTreeSet<ComponentId>| -> String {
        let ids: Vec<String> = set.iter().map(|id| id.0.to_string()).collect();
        ids.join(" ")
    };
    lines(
        text,
        [
            ("device", &it.input.component.0),
            ("port", &it.input.port),
            ("status", &(it.status as u8)),
            ("immediate", &ids(&it.immediate)),
            ("inferred", &ids(&it.inferred)),
        ],
    );
}

/// A report of what was found.
fn printed(sheet: &Sheet, mark: &Mark) -> String {
    let mut text = String::new();
    let out = &mut text;
    lines(
        out,
        [("answer", &0), ("components", &sheet.components.len())],
    );
    for (place, it) in sheet.components.iter().enumerate() {
        component(out, mark, place, it);
    }
    lines(out, [("connections", &mark.ports.kept.len())]);
    mark.ports.kept.iter().for_each(|it| kept(out, it));
    lines(out, [("regions", &mark.liveness.regions.len())]);
    for it in &mark.liveness.regions {
        let [cyclic, has_drive] = [it.cyclic, it.has_drive].map(u8::from);
        lines(out, [("cyclic", &cyclic), ("has_drive", &has_drive)]);
    }
    lines(out, [("sources", &mark.liveness.sources.len())]);
    for it in &mark.liveness.sources {
        lines(out, [("id", &it.component.0), ("kind", &(it.kind as u8))]);
    }
    lines(out, [("inputs", &mark.inputs.len())]);
    mark.inputs.iter().for_each(|it| input(out, it));
    if sheet.rules >= Rules::Three {
        lines(out, [("unread", &sheet.unread().count())]);
        sheet.unread().for_each(|id| lines(out, [("id", &id.0)]));
    }
    text
}

/// What is found of a valid sheet is what its report has, and hangs together.
fn hold(text: &[u8], case: &str) -> Result<Mark, Refusal> {
    let sheet = read_sheet(text)?;
    let mark = sheet.mark()?;
    let wanted = report(text)?;
    assert_eq!(printed(&sheet, &mark).as_bytes(), wanted, "{case}");
    let found = &mark.liveness;
    let rows = mark.inputs.iter().map(|it| (it.input, it.status));
    assert!(
        rows.eq(found.inputs.iter().map(|it| (it.input, it.status))),
        "{case}"
    );
    let immediate = mark.inputs.iter().map(|it| it.immediate.clone());
    assert!(
        immediate.eq(found.immediate(&mark.ports.connections())),
        "{case}"
    );
    let parted = mark.ports.kept.len() + mark.ports.left_out.len();
    assert_eq!(parted, sheet.connections.len(), "{case}");
    Ok(mark)
}

#[test]
fn it_is_the_report_of_drawn_sheets() -> Result<(), Refusal> {
    let mut statuses = [0_u64; 4];
    let mut left_out = 0;
    for seed in 0..20_000 {
        let sheet = drawn::sheet(300_000 + seed);
        let mark = hold(&sheet.text, &format!("sheet seed {}", 300_000 + seed))?;
        if seed % 16 == 0 {
            let scene = Scene::from(read_sheet(&sheet.text)?);
            assert_eq!(scene.mark().as_ref(), Ok(&mark), "{scene:?}");
        }
        let each = mark.inputs.iter();
        each.for_each(|it| statuses[it.status as usize] += 1);
        left_out += mark.ports.left_out.len();
    }
    println!("marked: verdicts {statuses:?}, left out {left_out}");
    assert!(statuses.iter().all(|count| *count > 500) && left_out > 10_000);
    Ok(())
}

#[test]
fn it_is_the_report_of_every_small_scene() -> Result<(), Refusal> {
    let mut count = 0_u64;
    let rules = Rules::ALL.into_iter().cycle();
    for ((place, scene), rules) in exhaustive::scenes().enumerate().zip(rules) {
        let text = write_form(Form::Short, rules.number(), &scene);
        hold(&text, &format!("small scene {place}, {rules}"))?;
        count += 1;
    }
    println!("marked: {count} small scenes");
    assert!(count > 90_000);
    Ok(())
}

#[test]
fn it_is_the_report_of_full_plots() -> Result<(), Refusal> {
    let full = (0..2).map(|seed| Profile::Full.scene(seed));
    let plots = Shape::ALL.map(|shape| shape.scene(1_024, 3));
    for (place, scene) in full.chain(plots).enumerate() {
        for rules in Rules::ALL {
            let text = write_form(Form::Short, rules.number(), &scene);
            hold(&text, &format!("full plot {place}, {rules}"))?;
        }
    }
    Ok(())
}

/// One or two faults in the lists: the refusal is that of the report.
#[test]
fn its_refusals_are_those_of_the_report() {
    let mut by_number = [0_u64; 8];
    let mut hold = |scene: &scenes::Scene, case: &str| {
        let Some(lists) = Lists::of(scene) else {
            return;
        };
        let given = mark(
            Rules::Two,
            &lists.components,
            &lists.connections,
            &lists.frontiers,
        );
        let text = write_form(Form::Short, 2, scene);
        let refusal = given.err();
        assert_eq!(refusal, report(&text).err(), "{case}{scene}");
        by_number[refusal.map_or(0, |it| usize::from(it.reason.number()))] += 1;
    };
    for profile in Profile::ALL {
        let seeds = if profile.is_large() { 2 } else { 40 };
        for seed in 70_000..70_000 + seeds {
            let (scene, random) = (profile.scene(seed), &mut Random::new(seed));
            let case = format!("{} seed {seed}", profile.name());
            for damage in single(&scene) {
                hold(&damage.apply(&scene), &format!("{case} {damage:?}"));
            }
            for _ in 0..60 {
                if let Some([first, second]) = pair(&scene, random) {
                    let damaged = second.apply(&first.apply(&scene));
                    hold(&damaged, &format!("{case} {first:?} {second:?}"));
                }
            }
        }
    }
    println!("marked, refused by number {by_number:?}");
    assert!(
        [1, 3, 4, 5, 6]
            .iter()
            .all(|&number| by_number[number] > 100)
    );
    assert_eq!([2, 7].map(|number: usize| by_number[number]), [0; 2]);
}

/// A fault of the frontiers comes before one of the components with a higher number.
#[test]
fn the_lowest_number_of_all_lists_is_told() -> Result<(), Refusal> {
    let Some(lists) = Lists::of(&blanks::scene(3)) else {
        panic!("not typed");
    };
    let twice = [&lists.components[..], &lists.components[..]].concat();
    let far = vec![dustroute::Position::new(30_000_001, 0, 0)];
    let told = |frontiers: &[_]| {
        let said = mark(Rules::One, &twice, &lists.connections, frontiers);
        said.map_err(|refusal| refusal.reason).err()
    };
    assert_eq!(told(&far), Some(Reason::OutOfRange));
    assert_eq!(told(&far.repeat(257)), Some(Reason::Length));
    assert_eq!(told(&[]), Some(Reason::ComponentOrder));
    Ok(())
}
