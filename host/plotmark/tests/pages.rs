//! Pages: well-formed, and what they draw held to the report.

mod common;
#[path = "common/markup.rs"]
mod markup;

use std::error::Error;
use std::fs;
use std::time::Instant;

use common::{Report, marked_sheets, name};
use markup::{Element, check, value};
use plotmark::page::page;
use plotmark::plot::Marked;
use scenes::sheets::drawn;
use scenes::sheets::forms::{Form, write_form};
use scenes::sized::Shape;

type Done = Result<(), Box<dyn Error>>;

fn classes(element: &Element) -> Vec<&str> {
    value(element, "class")
        .unwrap_or_default()
        .split(' ')
        .collect()
}

/// Blocks, signs and regions of a page, held to the report.
fn hold(text: &[u8], case: &str) -> Result<usize, Box<dyn Error>> {
    let page = page(case, &Marked::read(text)?);
    let elements = check(&page, case);
    let report = String::from_utf8(dustroute::report(text)?)?;
    let report = Report::of(&report).ok_or("no report")?;
    let blocks = elements.iter();
    let blocks = blocks.filter(|it| it.0 == "g" && classes(it).contains(&"block"));
    let mut count = 0;
    for block in blocks {
        hold_block(block, &report, case)?;
        count += 1;
    }
    assert_eq!(count, report.components.len(), "{case}");
    for (status, class) in (0..).zip(["good", "waits", "empty", "bad"]) {
        let discs = elements.iter();
        let discs = discs.filter(|it| it.0 == "circle" && classes(it) == [class]);
        let wanted = report.inputs.iter().filter(|it| it.status == status);
        // One of each stands in the legend.
        assert_eq!(discs.count(), 1 + wanted.count(), "{case}: {class}");
    }
    let regions = elements.iter().filter(|it| it.0 == "li");
    let regions = regions.filter_map(|it| value(it, "data-region"));
    let regions: Vec<&str> = regions.collect();
    let wanted = (0..report.regions.len()).map(|it| it.to_string());
    assert_eq!(regions, wanted.collect::<Vec<_>>(), "{case}");
    Ok(page.len())
}

fn hold_block(block: &Element, report: &Report, case: &str) -> Done {
    let id = value(block, "id").and_then(|it| it.strip_prefix('b'));
    let id: u64 = id.ok_or("no id")?.parse()?;
    let [_, _, region, drive, potential] = report.components[&id];
    let state = ["not", "would", "driven"][usize::try_from(drive + potential)?];
    let data = ["data-region", "data-lights"].map(|key| value(block, key));
    let wanted = [region, drive].map(|it| it.to_string());
    assert_eq!(
        data,
        [Some(wanted[0].as_str()), Some(wanted[1].as_str())],
        "{case}: {id}"
    );
    assert!(classes(block).contains(&state), "{case}: {id}");
    let is_unread = report.unread.contains(&id);
    assert_eq!(
        classes(block).contains(&"unread"),
        is_unread,
        "{case}: {id}"
    );
    Ok(())
}

#[test]
fn of_the_examples() -> Done {
    for path in marked_sheets()? {
        let bytes = hold(&fs::read(&path)?, &name(&path))?;
        println!("{}: {bytes} bytes", name(&path));
    }
    Ok(())
}

#[test]
fn of_drawn_sheets() -> Done {
    let mut bytes = 0;
    for seed in 0..2_000 {
        bytes += hold(&drawn::sheet(seed).text, &format!("sheet {seed}"))?;
    }
    println!("2000 pages of {bytes} bytes");
    Ok(())
}

/// A plot at every limit of the core.
#[test]
fn of_full_plots() -> Done {
    for shape in Shape::ALL {
        let text = write_form(Form::Short, 3, &shape.scene(1_024, 1));
        let bytes = hold(&text, shape.name())?;
        println!("{} of 1024 blocks: {bytes} bytes", shape.name());
    }
    Ok(())
}

/// A name that is no HTML.
#[test]
fn names_are_escaped() -> Done {
    let marked = Marked::read(b"components=0\nconnections=0\nfrontiers=0\n")?;
    let name = "<script>\"&'\u{1}\u{202e}</script>.sheet";
    let page = page(name, &marked);
    check(&page, "a name");
    assert!(
        page.contains("<h1>&lt;script&gt;&quot;&amp;'\u{fffd}\u{202e}&lt;/script&gt;.sheet</h1>")
    );
    Ok(())
}

/// Said, and held only to what no slow machine misses.
#[test]
fn a_full_plot_is_fast() -> Done {
    let text = fs::read(common::examples().join("full-plot.sheet"))?;
    let mut best = f64::INFINITY;
    for _ in 0..5 {
        let start = Instant::now();
        let page = page("full-plot.sheet", &Marked::read(&text)?);
        assert!(page.len() > 100_000);
        best = best.min(start.elapsed().as_secs_f64());
    }
    println!(
        "full-plot.sheet read, marked and drawn in {:.1} ms",
        best * 1_000.0
    );
    assert!(best < 1.0);
    Ok(())
}
