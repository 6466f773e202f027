//! How many megabytes of text a second the library takes, over files, in one process.

use std::hint::black_box;
use std::process::ExitCode;
use std::time::Instant;

const USAGE: &str = "\
usage: wgsl_speed [--runs N] FILE..

For each file that is a module it prints a line for each measurement, with megabytes a second, of
the best and of the median of N runs, which are made in turn; N is 15 unless it is given.

    lex                   the tokens as an array
    parse                 the tokens and the tree, which is dropped
    format                the same and the printed text
    rust tree             the tree as Rust's, which is dropped
    rust tree, printed    the same and the printed text
    print                 what `format` takes more than `parse`
    rust print            what `rust tree, printed` takes more than `rust tree`

To compare another implementation in the same process, add its crate to
bench/rust/Cargo.toml and a line for each of its calls to MEASURED in bench/rust/src/main.rs:

    (\"other parse\", |text| black_box(other::parse(text)).is_ok()),
";

/// What is measured: its name, and the call for a text, which returns whether it was
/// accepted.
type Measured = (&'static str, fn(&str) -> bool);

const MEASURED: &[Measured] = &[
    ("lex", |text| black_box(centrelilac::tokens(text)).is_ok()),
    ("parse", |text| black_box(centrelilac::check(text)).is_ok()),
    ("format", |text| {
        black_box(centrelilac::format(text)).is_ok()
    }),
    ("rust tree", |text| {
        black_box(centrelilac::parse(text)).is_ok()
    }),
    ("rust tree, printed", |text| {
        let tree = centrelilac::parse(text);
        tree.is_ok_and(|it| !black_box(it.to_string()).is_empty())
    }),
];

/// What is printed of two measurements, since no call does it by itself: its name, and the names of
/// the one that includes it and of the one that is the rest.
const DIFFERENCES: &[(&str, &str, &str)] = &[
    ("print", "format", "parse"),
    ("rust print", "rust tree, printed", "rust tree"),
];

/// How often each is measured where no number is given.
const RUNS: usize = 15;

/// The shortest that a run takes, in seconds: a short text is taken as often as that needs.
const SHORTEST: f64 = 0.02;

/// The seconds that a text takes, in a run of `turns` turns, unless it is rejected.
fn seconds(done: fn(&str) -> bool, text: &str, turns: usize) -> Option<f64> {
    let start = Instant::now();
    for _ in 0..turns {
        if !done(black_box(text)) {
            return None;
        }
    }
    Some(start.elapsed().as_secs_f64() / turns as f64)
}

/// What a measurement takes: its name, how many turns a run has, and the seconds of a turn in
/// each.
struct Taken {
    name: &'static str,
    done: fn(&str) -> bool,
    turns: usize,
    seconds: Vec<f64>,
}

impl Taken {
    /// A measurement that is to be made, unless the text is rejected.
    fn new((name, done): Measured, text: &str) -> Option<Self> {
        let once = seconds(done, text, 1)?.max(1e-9);
        let turns = ((SHORTEST / once).ceil() as usize).clamp(1, 1_000_000);
        Some(Taken {
            name,
            done,
            turns,
            seconds: Vec::new(),
        })
    }
}

/// The best of some runs, and their median, in seconds.
fn best_and_median(taken: &Taken) -> Option<(f64, f64)> {
    let mut sorted = taken.seconds.clone();
    sorted.sort_by(f64::total_cmp);
    Some((*sorted.first()?, sorted[sorted.len() / 2]))
}

/// How many megabytes a second `size` bytes are; none where no time was measured.
fn speed(size: usize, seconds: f64) -> String {
    if seconds > 0.0 {
        format!("{:.1}", size as f64 / seconds / 1e6)
    } else {
        "-".to_owned()
    }
}

/// Prints a line.
fn tell(file: &str, name: &str, best: &str, median: &str) {
    println!("{file:32} {name:20} {best:>8} {median:>8}");
}

/// Measures a text in each way that accepts it.
fn measure(file: &str, text: &str, runs: usize) {
    let mut all: Vec<Taken> = Vec::new();
    for measured in MEASURED {
        match Taken::new(*measured, text) {
            Some(taken) => all.push(taken),
            None => eprintln!("{file}: {} rejects it", measured.0),
        }
    }
    for _ in 0..runs {
        for taken in &mut all {
            taken.seconds.extend(seconds(taken.done, text, taken.turns));
        }
    }
    let named = |name: &str| {
        let taken = all.iter().find(|taken| taken.name == name)?;
        best_and_median(taken)
    };
    let line = |name: &str, best: f64, median: f64| {
        tell(
            file,
            name,
            &speed(text.len(), best),
            &speed(text.len(), median),
        );
    };
    for (name, _) in MEASURED {
        if let Some((best, median)) = named(name) {
            line(name, best, median);
        }
    }
    for (name, whole, rest) in DIFFERENCES {
        if let (Some(whole), Some(rest)) = (named(whole), named(rest)) {
            line(name, whole.0 - rest.0, whole.1 - rest.1);
        }
    }
}

/// Measures a file, and returns whether it could be read and is a module.
fn measure_file(file: &str, runs: usize) -> bool {
    let text = match std::fs::read_to_string(file) {
        Ok(text) => text,
        Err(error) => {
            eprintln!("{file}: {error}");
            return false;
        }
    };
    if let Err(fault) = centrelilac::check(&text) {
        eprintln!("{file}: {fault}");
        return false;
    }
    measure(file, &text, runs);
    true
}

/// How many runs are asked for, and over which files.
fn asked(words: &[String]) -> Option<(usize, &[String])> {
    let (runs, files) = match words {
        [word, number, files @ ..] if word == "--runs" => (number.parse().ok()?, files),
        files => (RUNS, files),
    };
    let is_option = |word: &String| word.starts_with("--");
    (runs > 0 && !files.is_empty() && !files.iter().any(is_option)).then_some((runs, files))
}

fn main() -> ExitCode {
    let words: Vec<String> = std::env::args().skip(1).collect();
    if words == ["--help"] {
        print!("{USAGE}");
        return ExitCode::SUCCESS;
    }
    let Some((runs, files)) = asked(&words) else {
        eprint!("{USAGE}");
        return ExitCode::from(5);
    };
    tell("file", "MB/s", "best", "median");
    let mut code = ExitCode::SUCCESS;
    for file in files {
        if !measure_file(file, runs) {
            code = ExitCode::FAILURE;
        }
    }
    code
}
