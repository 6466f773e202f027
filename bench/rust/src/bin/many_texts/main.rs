//! Takes many made texts through reading, printing and reading again, on all processors.

mod made;

use made::made;
use std::process::ExitCode;
use std::thread::{self, available_parallelism};
use std::time::Instant;

const USAGE: &str = "\
usage: many_texts [--from N] COUNT

Makes COUNT texts, by the numbers from N on, 0 unless it is given, and checks of each: `format` and
`parse` accept it or name the same fault; its tree prints as the text that `format` returns; and
that text parses to the tree without its empty items. Prints how many were accepted and how long it
took; if a check fails, the text and what fails, with status 1.
";

/// Whether a text is accepted, or what fails.
fn check(text: &str) -> Result<bool, String> {
    match (centrelilac::format(text), centrelilac::parse(text)) {
        (Ok(printed), Ok(mut unit)) => {
            if unit.to_string() != printed {
                return Err(format!("its tree prints as {unit}"));
            }
            let again = centrelilac::parse(&printed).map_err(|it| format!("its print: {it}"))?;
            unit.remove_voids();
            if again == unit {
                Ok(true)
            } else {
                Err(format!("its print has the tree {again:?}"))
            }
        }
        (Err(one), Err(other)) if one == other => Ok(false),
        (formatted, parsed) => Err(format!("{formatted:?} but {parsed:?}")),
    }
}

/// Checks the texts of some numbers, and returns how many are accepted.
fn check_all(numbers: impl Iterator<Item = u64>) -> Result<u64, String> {
    let mut accepted = 0;
    for number in numbers {
        let text = made(number);
        accepted += check(&text).map_err(|why| format!("{number}: {text}\n{why}"))? as u64;
    }
    Ok(accepted)
}

/// The first number and how many there are, as the arguments say.
fn numbers() -> Option<(u64, u64)> {
    let words: Vec<String> = std::env::args().skip(1).collect();
    match &words.iter().map(String::as_str).collect::<Vec<_>>()[..] {
        [count] => Some((0, count.parse().ok()?)),
        ["--from", first, count] => Some((first.parse().ok()?, count.parse().ok()?)),
        _ => None,
    }
}

fn main() -> ExitCode {
    let Some((first, count)) = numbers() else {
        eprint!("{USAGE}");
        return ExitCode::from(2);
    };
    let lanes = available_parallelism().map_or(1, |it| it.get() as u64);
    let start = Instant::now();
    let found: Result<Vec<u64>, String> = thread::scope(|scope| {
        let lane = |at| {
            scope.spawn(move || check_all((first + at..first + count).step_by(lanes as usize)))
        };
        let lanes: Vec<_> = (0..lanes).map(lane).collect();
        lanes
            .into_iter()
            .map(|it| it.join().expect("no check panics"))
            .collect()
    });
    match found {
        Ok(accepted) => {
            let (accepted, seconds) = (accepted.iter().sum::<u64>(), start.elapsed().as_secs_f64());
            println!("{count} texts, {accepted} accepted, {seconds:.1} s on {lanes} processors");
            ExitCode::SUCCESS
        }
        Err(why) => {
            println!("{why}");
            ExitCode::FAILURE
        }
    }
}
