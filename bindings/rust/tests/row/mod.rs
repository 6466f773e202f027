//! The rows of texts with their expected results, as `tests/rows/README.md` describes them.

use crate::text::texts_of;
use std::fs;
use std::path::PathBuf;

/// A row: how its text is read, the text, and what is wanted of it, each by its word and the rest.
#[derive(Debug, Default)]
pub struct Row {
    pub place: String,
    pub read: String,
    pub text: Vec<u8>,
    pub wanted: Vec<(String, String)>,
}

impl Row {
    pub fn wanted(&self, word: &str) -> Option<&str> {
        let found = self.wanted.iter().find(|(wanted, _)| wanted == word);
        found.map(|(_, rest)| rest.as_str())
    }
}

/// Returns the rows of a file.
fn rows_of(name: &str, data: &str) -> Vec<Row> {
    let mut rows = Vec::new();
    for (index, part) in data.split("\n\n").enumerate() {
        let lines = part.lines().filter(|line| !line.starts_with('#'));
        let mut joined: Vec<String> = Vec::new();
        for line in lines {
            match joined.last_mut() {
                // a text that goes on after a line break
                Some(last) if line.trim_start().starts_with('"') => {
                    last.push_str(" \"\\n\" ");
                    last.push_str(line.trim_start());
                }
                _ => joined.push(line.to_owned()),
            }
        }
        let mut lines = joined.into_iter();
        let Some(first) = lines.next() else { continue };
        let Some((read, text)) = first.find('"').map(|start| first.split_at(start)) else {
            continue;
        };
        let split = |line: String| match line.split_once(' ') {
            Some((word, rest)) => (word.to_owned(), rest.to_owned()),
            None => (line, String::new()),
        };
        rows.push(Row {
            place: format!("{name}, part {index}: {first}"),
            read: read.trim_end().to_owned(),
            text: texts_of(text),
            wanted: lines.map(split).collect(),
        });
    }
    rows
}

/// Returns all rows.
pub fn rows() -> Vec<Row> {
    let top = PathBuf::from(env!("CARGO_MANIFEST_DIR")).join("../..");
    let mut names: Vec<_> = ["tests/rows", "crates/wgsl_test_texts/cases"]
        .iter()
        .flat_map(|folder| fs::read_dir(top.join(folder)).expect("the rows are there"))
        .map(|entry| entry.expect("a file").path())
        .filter(|path| path.extension().is_some_and(|extension| extension == "txt"))
        .collect();
    names.sort();
    let rows = |path: &PathBuf| {
        let data = fs::read_to_string(path).expect("a file of rows");
        rows_of(&path.display().to_string(), &data)
    };
    names.iter().flat_map(rows).collect()
}
