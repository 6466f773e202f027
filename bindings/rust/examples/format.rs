//! Formats shaders: each file that is named is printed, or its fault is reported.

use std::process::ExitCode;

fn main() -> ExitCode {
    let mut code = ExitCode::SUCCESS;
    for name in std::env::args().skip(1) {
        let text = match std::fs::read_to_string(&name) {
            Ok(text) => text,
            Err(error) => {
                eprintln!("{name}: {error}");
                code = ExitCode::from(4);
                continue;
            }
        };
        match centrelilac::format(&text) {
            Ok(printed) => print!("{printed}"),
            Err(fault) => {
                eprintln!("{name}: {fault}");
                code = ExitCode::from(1);
            }
        }
    }
    code
}
