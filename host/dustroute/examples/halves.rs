//! Two tables, one plot: joins the sheets of two halves, each in either form, and
//! prints the sheet of both; or says what a pupil has to put right. To be copied and
//! changed.
//!
//!     cargo run --offline --example halves -- left-half.sheet right-half.sheet
//!
//! Without arguments it joins the halves of the repository's `examples/`.

use std::env;
use std::error::Error;
use std::fs;
use std::io::{self, Write};
use std::path::PathBuf;

use dustroute::{Clash, JoinRefusal, WhichSheet, join};

/// The halves of a lesson.
fn lesson() -> [PathBuf; 2] {
    let folder = PathBuf::from(env!("CARGO_MANIFEST_DIR")).join("../../examples");
    ["left-half.sheet", "right-half.short"].map(|name| folder.join(name))
}

/// What to say to whom.
fn advice(refusal: &JoinRefusal) -> String {
    let who = match refusal.sheet {
        WhichSheet::First => "the first table has to look at its sheet",
        WhichSheet::Second => "the second table has to look at its sheet",
        WhichSheet::Both => match refusal.clash {
            Some(Clash::Rules { .. }) => "agree on the rules first",
            Some(Clash::Component(_)) => "look at this block together",
            _ => "the plot of both is too large",
        },
    };
    format!("{who}: {refusal}")
}

fn main() -> Result<(), Box<dyn Error>> {
    let named: Vec<PathBuf> = env::args_os().skip(1).map(PathBuf::from).collect();
    let both = if named.is_empty() {
        lesson().to_vec()
    } else {
        named
    };
    let [first, second] = &both[..] else {
        return Err("usage: halves FIRST SECOND".into());
    };
    match join(&fs::read(first)?, &fs::read(second)?) {
        Ok(sheet) => io::stdout().write_all(&sheet)?,
        Err(refusal) => return Err(advice(&refusal).into()),
    }
    Ok(())
}
