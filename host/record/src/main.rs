//! Writes the recorded answers into the folder that is named first, a report
//! and the shorter form beside each sheet of the folder that is named second, and
//! what the program `replay` reads into the file that is named third.

use std::path::Path;
use std::process::ExitCode;

use record::{examples, replay};
use scenes::Profile;

fn write_all(folder: &Path) -> std::io::Result<()> {
    for profile in Profile::ALL {
        let path = folder.join(record::file_name(profile));
        std::fs::write(&path, record::text(profile))?;
        println!("{}", path.display());
    }
    Ok(())
}

fn write_reports(folder: &Path) -> std::io::Result<()> {
    for sheet in examples::sheets(folder)? {
        let path = examples::report_path(&sheet);
        std::fs::write(&path, examples::report(&sheet)?)?;
        println!("{}", path.display());
        if let Some(text) = examples::turned(&sheet)? {
            let path = examples::short_path(&sheet);
            std::fs::write(&path, text)?;
            println!("{}", path.display());
        }
    }
    Ok(())
}

fn write_replay(path: &Path) -> std::io::Result<()> {
    std::fs::write(path, replay::input())?;
    println!("{}", path.display());
    Ok(())
}

fn main() -> ExitCode {
    let mut names = std::env::args_os().skip(1);
    let Some(folder) = names.next() else {
        eprintln!("usage: record FOLDER [EXAMPLES [REPLAY]]");
        return ExitCode::FAILURE;
    };
    let mut written = write_all(Path::new(&folder));
    if let Some(examples) = names.next() {
        written = written.and_then(|()| write_reports(Path::new(&examples)));
    }
    if let Some(replay) = names.next() {
        written = written.and_then(|()| write_replay(Path::new(&replay)));
    }
    match written {
        Ok(()) => ExitCode::SUCCESS,
        Err(fault) => {
            eprintln!("{fault}");
            ExitCode::FAILURE
        }
    }
}
