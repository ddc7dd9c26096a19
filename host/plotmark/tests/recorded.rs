//! Words and pages of the examples and of this crate's own sheets, as they were looked
//! at. `PLOTMARK_RECORD=1` writes them anew.

mod common;

use std::error::Error;
use std::fs;

use common::{examples, hold, marked_sheets, name, own, sheets};
use plotmark::page::page;
use plotmark::plot::Marked;
use plotmark::refused::refused;
use plotmark::text::{Colours, write};
use plotmark::words::{Driven, told};

type Done = Result<(), Box<dyn Error>>;

#[test]
fn words_are_as_recorded() -> Done {
    let mut count = 0;
    for path in marked_sheets()? {
        let marked = Marked::read(&fs::read(&path)?)?;
        let name = name(&path);
        let driven = if name == "full-plot.sheet" {
            Driven::Few
        } else {
            Driven::All
        };
        let words = write(&told(&name, &marked, driven), Colours::Off);
        count += usize::from(hold("words", &format!("{name}.words"), &words)?);
    }
    println!("{count} sheets in words, as recorded");
    assert!(count >= 31);
    Ok(())
}

#[test]
fn pages_are_as_recorded() -> Done {
    let mut count = 0;
    for path in sheets(&own(), &["sheet"])? {
        let name = name(&path);
        let page = page(&name, &Marked::read(&fs::read(&path)?)?);
        count += usize::from(hold("pages", &format!("{name}.html"), &page)?);
    }
    println!("{count} pages, as recorded");
    assert!(count >= 7);
    Ok(())
}

/// Why each of the examples that are refused is.
#[test]
fn refusals_are_as_recorded() -> Done {
    let mut count = 0;
    for path in sheets(&examples().join("refused"), &["sheet"])? {
        let text = fs::read(&path)?;
        let refusal = Marked::read(&text).err().ok_or("marked")?;
        let name = name(&path);
        let words = refused(&name, &text, refusal) + "\n";
        count += usize::from(hold("refused", &format!("{name}.words"), &words)?);
    }
    println!("{count} refusals, as recorded");
    assert!(count >= 33);
    Ok(())
}

/// Colours stand around verdicts and titles, and nothing else is changed by them.
#[test]
fn colours_change_no_words() -> Done {
    for path in marked_sheets()? {
        let marked = Marked::read(&fs::read(&path)?)?;
        let told = told("it", &marked, Driven::All);
        let coloured = write(&told, Colours::On);
        assert!(coloured.contains("\x1b[1m"));
        let mut plain = coloured;
        for code in ["\x1b[0m", "\x1b[1m", "\x1b[31m", "\x1b[32m", "\x1b[33m"] {
            plain = plain.replace(code, "");
        }
        assert_eq!(plain, write(&told, Colours::Off));
    }
    Ok(())
}
