//! Pages opened in a browser, where one is installed: regions light in the order of the
//! report, and nothing lies over anything else.

mod common;

use std::error::Error;
use std::fs::{self, File};
use std::path::{Path, PathBuf};
use std::process::{Command, Stdio};
use std::thread;
use std::time::{Duration, Instant};

use common::{Report, examples, name, own};
use plotmark::page::page;
use plotmark::plot::Marked;
use scenes::sheets::forms::{Form, write_form};
use scenes::sized::Shape;

type Done = Result<(), Box<dyn Error>>;

const BROWSERS: [&str; 4] = ["chromium", "chromium-browser", "google-chrome", "chrome"];

const PROBE: &str = include_str!("common/probe.js");

/// A browser that is installed.
fn browser() -> Option<PathBuf> {
    let folders = std::env::var_os("PATH")?;
    let folders: Vec<PathBuf> = std::env::split_paths(&folders).collect();
    let each = BROWSERS
        .iter()
        .flat_map(|name| folders.iter().map(move |it| it.join(name)));
    each.into_iter().find(|it| it.is_file())
}

/// Longer than any page takes.
const PATIENCE: Duration = Duration::from_secs(120);

/// What a page has become in a browser; nothing where the browser does not do it.
fn dom(browser: &Path, page: &str, name: &str) -> Result<Option<String>, Box<dyn Error>> {
    let folder = Path::new(env!("CARGO_TARGET_TMPDIR")).join(name);
    fs::create_dir_all(&folder)?;
    let (file, out) = (folder.join("plot.html"), folder.join("dom.html"));
    fs::write(&file, page)?;
    let mut command = Command::new(browser);
    command.args(["--headless", "--no-sandbox", "--disable-gpu"]);
    command.args(["--disable-dev-shm-usage", "--window-size=1200,900"]);
    command.arg(format!(
        "--user-data-dir={}",
        folder.join("profile").display()
    ));
    command
        .arg("--dump-dom")
        .arg(format!("file://{}", file.display()));
    let mut child = command
        .stdout(File::create(&out)?)
        .stderr(Stdio::null())
        .spawn()?;
    let start = Instant::now();
    while child.try_wait()?.is_none() {
        if start.elapsed() > PATIENCE {
            child.kill()?;
            child.wait()?;
            return Ok(None);
        }
        thread::sleep(Duration::from_millis(20));
    }
    Ok(Some(fs::read_to_string(&out)?))
}

/// Whether an installed browser does anything here.
fn starts(browser: &Path) -> Result<bool, Box<dyn Error>> {
    let page = "<!DOCTYPE html><html><body><p>it starts</p></body></html>";
    let dom = dom(browser, page, "first")?;
    Ok(dom.is_some_and(|it| it.contains("<p>it starts</p>")))
}

/// What the probe said of a page.
fn opened(browser: &Path, page: &str, name: &str) -> Result<Vec<String>, Box<dyn Error>> {
    let probe = format!("<script>{PROBE}</script></body>");
    let dom = dom(browser, &page.replace("</body>", &probe), name)?;
    let dom = dom.ok_or(format!("{name}: not opened in time"))?;
    let (_, said) = dom
        .split_once("<pre id=\"said\">")
        .ok_or(format!("{name}: not opened"))?;
    let (said, _) = said.split_once("</pre>").ok_or("no end")?;
    Ok(said.lines().map(str::to_string).collect())
}

/// The ids that are lit after each step, by the report.
fn lit(report: &Report) -> Vec<String> {
    let steps = 0..report.regions.len() as u64;
    let each = steps.map(|step| {
        let here = report.components.iter();
        let here = here.filter(|(_, [_, _, region, drive, _])| *region <= step && *drive == 1);
        let mut ids: Vec<String> = here.map(|(id, _)| id.to_string()).collect();
        ids.sort();
        ids.join(" ")
    });
    each.collect()
}

fn sorted(ids: &str) -> String {
    let mut ids: Vec<&str> = ids.split_whitespace().collect();
    ids.sort_unstable();
    ids.join(" ")
}

fn hold_file(browser: &Path, sheet: &Path) -> Done {
    hold(browser, &fs::read(sheet)?, &name(sheet))
}

fn hold(browser: &Path, text: &[u8], name: &str) -> Done {
    let report = String::from_utf8(dustroute::report(text)?)?;
    let report = Report::of(&report).ok_or("no report")?;
    let said = opened(browser, &page(name, &Marked::read(text)?), name)?;
    let after = |word: &str| {
        let each = said.iter().filter_map(|it| it.strip_prefix(word));
        each.map(|it| it.trim().to_string())
            .collect::<Vec<String>>()
    };
    assert_eq!(after("hidden"), ["false"], "{name}: the script did not run");
    let given: Vec<String> = after("lit").iter().map(|it| sorted(it)).collect();
    assert_eq!(given, lit(&report), "{name}");
    assert_eq!(after("whole"), ["0"], "{name}");
    assert_eq!(after("overlaps"), ["0"], "{name}: {:#?}", after("overlap "));
    assert_eq!(after("wide"), ["false"], "{name}");
    println!(
        "{name}: {} steps, {} shapes apart",
        given.len(),
        after("measured").join("")
    );
    Ok(())
}

#[test]
fn pages_light_in_order_and_nothing_overlaps() -> Done {
    let Some(browser) = browser() else {
        println!("no browser is installed: pages are not opened");
        return Ok(());
    };
    if !starts(&browser)? {
        println!("{} does not start: pages are not opened", browser.display());
        return Ok(());
    }
    for name in [
        "lever-and-repeater",
        "staircase",
        "fog-rules-3",
        "full-plot",
    ] {
        hold_file(&browser, &examples().join(format!("{name}.sheet")))?;
    }
    for name in ["turned", "cleared", "ring", "everything-2", "everything-3"] {
        hold_file(&browser, &own().join(format!("{name}.sheet")))?;
    }
    // Blocks and connections of every kind, close together.
    for shape in [Shape::Lattice, Shape::Circuits, Shape::Packed] {
        let text = write_form(Form::Short, 2, &shape.scene(60, 2));
        hold(&browser, &text, shape.name())?;
    }
    Ok(())
}
