//! The program `plotmark`.

use std::process::ExitCode;

fn main() -> ExitCode {
    plotmark::run::main()
}
