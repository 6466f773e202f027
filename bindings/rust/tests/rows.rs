//! The rows of texts with what is wanted of them, which `crates/wgsl_test_texts` checks too.

mod row;
mod text;

use centrelilac::form::{text_form, Source};
use centrelilac::syntax::{
    Expression, GlobalDeclaration, GlobalDirective, ModulePath, Statement, TranslationUnit,
};
use centrelilac::{Fault, FaultKind, MinifyOptions, Names, Token};
use row::{rows, Row};
use std::fmt::Debug;
use text::texts_of;

/// Checks a fault: `START..END MESSAGE`.
fn check_fault(row: &Row, text: &str, wanted: &str, fault: &Fault) {
    let (span, message) = wanted.split_once(' ').expect("a place and a message");
    assert_eq!(fault.span.to_string(), span, "{}", row.place);
    let mut message = String::from_utf8(texts_of(message)).expect("a message");
    let joined = fault.expected.join(", ");
    if matches!(
        fault.kind,
        FaultKind::UnexpectedToken | FaultKind::UnexpectedEof
    ) {
        assert!(!fault.expected.is_empty(), "{}", row.place);
        let named = match fault.expected.get(5) {
            None => format!("`{joined}`"),
            Some(_) => {
                let (named, others) = fault.expected.split_at(4);
                format!("`{}` or {} others", named.join(", "), others.len())
            }
        };
        message = format!("{message}, expected {named}");
    }
    assert_eq!(fault.message, message, "{}", row.place);
    if let Some(expected) = row.wanted("expected") {
        assert_eq!(joined.as_bytes(), texts_of(expected), "{}", row.place);
    }
    check_place(row, text, fault);
}

/// Checks the line and the column of a fault, and those that are printed with its source.
fn check_place(row: &Row, text: &str, fault: &Fault) {
    let Fault { line, column, .. } = fault;
    let before = &text[..fault.span.start];
    let front = &before[before.rfind('\n').map_or(0, |end| end + 1)..];
    assert_eq!(*line, 1 + before.matches('\n').count(), "{}", row.place);
    assert_eq!(*column, 1 + front.chars().count(), "{}", row.place);
    let printed = fault.clone().with_source(text.into()).to_string();
    let place = format!(" --> line {line}, column {column}");
    assert_eq!(
        printed.lines().nth(1),
        Some(place.as_str()),
        "{}",
        row.place
    );
}

/// Checks a text that may be a tree, which has JSON then.
fn check_tree<T: Source + PartialEq + Debug>(row: &Row) {
    let text = std::str::from_utf8(&row.text).expect("a text");
    match row.wanted("fault") {
        Some(wanted) => {
            check_fault(row, text, wanted, &text.parse::<T>().expect_err(&row.place));
            check_fault(
                row,
                text,
                wanted,
                &text_form::<T>(text).expect_err(&row.place),
            );
        }
        None => {
            text.parse::<T>().expect(&row.place);
            assert!(text_form::<T>(text).is_ok(), "{}", row.place);
        }
    }
}

/// Checks the calls on modules.
fn check_unit(row: &Row) {
    let text = std::str::from_utf8(&row.text).expect("a text");
    let printed = centrelilac::format(text);
    let checked = centrelilac::check(text);
    match row.wanted("fault") {
        Some(wanted) => {
            check_fault(row, text, wanted, &printed.expect_err(&row.place));
            check_fault(row, text, wanted, &checked.expect_err(&row.place));
        }
        None => {
            checked.expect(&row.place);
            let printed = printed.expect(&row.place);
            if let Some(wanted) = row.wanted("printed") {
                assert_eq!(
                    printed.trim_end().as_bytes(),
                    texts_of(wanted).trim_ascii_end()
                );
            }
            assert_eq!(centrelilac::format(&printed).expect(&row.place), printed);
        }
    }
}

/// Checks the tokens of a text by their places, or its first invalid one.
fn check_tokens(row: &Row) {
    let text = std::str::from_utf8(&row.text).expect("a text");
    let wanted = texts_of(row.wanted("items").expect("items"));
    let wanted = String::from_utf8(wanted).expect("items");
    let places: Vec<&str> = wanted
        .lines()
        .filter_map(|line| line.split(' ').next())
        .collect();
    match centrelilac::tokens(text) {
        Ok(tokens) => {
            let found: Vec<_> = tokens.iter().map(|token| token.span.to_string()).collect();
            assert_eq!(found, places, "{}", row.place);
            check_comments(row, text, &tokens);
        }
        Err(fault) => {
            let last = places.last().expect(&row.place);
            assert_eq!(fault.span.to_string(), *last, "{}", row.place);
            assert_eq!(fault.kind, FaultKind::InvalidToken, "{}", row.place);
            check_place(row, text, &fault);
            let other = centrelilac::tokens_with_comments(text).expect_err(&row.place);
            assert_eq!(other, fault, "{}", row.place);
            let (before, other) = centrelilac::tokens_before_fault(text);
            assert_eq!(other, Some(fault), "{}", row.place);
            let found = before.iter().filter(|item| !item.kind.is_comment());
            let found: Vec<_> = found.map(|token| token.span.to_string()).collect();
            assert_eq!(found, places[..places.len() - 1], "{}", row.place);
        }
    }
}

/// Checks that the tokens with the comments between them are the tokens, and that nothing but
/// comments and blank space is between these.
fn check_comments(row: &Row, text: &str, tokens: &[Token]) {
    let items = centrelilac::tokens_with_comments(text).expect(&row.place);
    let (comments, others): (Vec<_>, Vec<_>) = items
        .iter()
        .copied()
        .partition(|item| item.kind.is_comment());
    assert_eq!(others, tokens, "{}", row.place);
    for comment in comments {
        let comment = &text[comment.span.range()];
        assert!(
            comment.starts_with("//") || comment.starts_with("/*"),
            "{}",
            row.place
        );
    }
    let ends = items.iter().map(|item| item.span.end);
    let starts = items.iter().map(|item| item.span.start);
    for (end, start) in [0].into_iter().chain(ends).zip(starts.chain([text.len()])) {
        let blank = |c: char| c.is_whitespace() || matches!(c, '\u{200e}' | '\u{200f}');
        assert!(text[end..start].chars().all(blank), "{}", row.place);
    }
}

/// Checks whether a text is recognised.
fn check_dialect(row: &Row) {
    let text = std::str::from_utf8(&row.text).expect("a text");
    let recognized = centrelilac::recognize(text);
    match row.wanted("fault") {
        Some(wanted) => check_fault(row, text, wanted, &recognized.expect_err(&row.place)),
        None => recognized.expect(&row.place),
    }
}

/// Checks how deep a text nests.
fn check_nesting(row: &Row, text: &str) {
    let depth = centrelilac::nesting(text).expect(&row.place).to_string();
    assert_eq!(Some(depth.as_str()), row.wanted("depth"), "{}", row.place);
}

/// Checks whether a text begins with a template list.
fn check_template(row: &Row, text: &str) {
    let found = centrelilac::begins_with_template_list(text).expect(&row.place);
    let told = if found { "yes" } else { "no" };
    assert_eq!(Some(told), row.wanted("list"), "{}", row.place);
}

/// Checks the places of template lists.
fn check_lists(row: &Row, text: &str) {
    let lists = centrelilac::template_lists(text).expect(&row.place);
    let lists: Vec<_> = lists.iter().map(|list| list.to_string()).collect();
    let wanted = texts_of(row.wanted("lists").unwrap_or("\"\""));
    assert_eq!(lists.join("\n").as_bytes(), wanted, "{}", row.place);
}

/// Checks the path of a module.
fn check_path(row: &Row, text: &str) {
    let path = match text.parse::<ModulePath>() {
        Ok(path) => path,
        Err(error) => {
            let refused = row.wanted("refused").expect(&row.place);
            assert_eq!(
                error.to_string().as_bytes(),
                texts_of(refused),
                "{}",
                row.place
            );
            return;
        }
    };
    let printed = row.wanted("printed").expect(&row.place);
    assert_eq!(
        path.to_string().as_bytes(),
        texts_of(printed),
        "{}",
        row.place
    );
    for (_, joined) in row.wanted.iter().filter(|(word, _)| word == "joined") {
        let (suffix, wanted) = joined.split_once(' ').expect("a path and what it means");
        let joined = path.join_path(&suffix.parse().expect(&row.place));
        assert_eq!(
            joined.to_string().as_bytes(),
            texts_of(wanted),
            "{}",
            row.place
        );
    }
}

/// Checks a minified module and its new names.
fn check_minified(row: &Row, text: &str, choice: &str) {
    let (which, kept) = choice.split_once(' ').unwrap_or((choice, ""));
    let names = match which {
        "all" => Names::All,
        "locals" => Names::Locals,
        _ => Names::None,
    };
    let keep: Vec<&str> = kept.split(',').collect();
    let minified = match centrelilac::minify(text, &MinifyOptions { names, keep: &keep }) {
        Ok(minified) => minified,
        Err(fault) => {
            let wanted = row.wanted("fault").expect(&row.place);
            return check_fault(row, text, wanted, &fault);
        }
    };
    let line = |(name, new): &(String, String)| format!("{name} {new}");
    let lines: Vec<_> = minified.names.iter().map(line).collect();
    for (word, found) in [("names", &lines.join("\n")), ("printed", &minified.text)] {
        let wanted = texts_of(row.wanted(word).expect(&row.place));
        assert_eq!(found.as_bytes(), wanted, "{}", row.place);
    }
}

/// Checks a row, unless this crate has no call for it, and returns whether it did.
fn check_row(row: &Row) -> bool {
    let text = String::from_utf8_lossy(&row.text);
    match row.read.as_str() {
        "unit" => {
            check_unit(row);
            check_tree::<TranslationUnit>(row);
        }
        "directive" => check_tree::<GlobalDirective>(row),
        "declaration" => check_tree::<GlobalDeclaration>(row),
        "statement" => check_tree::<Statement>(row),
        "expression" => check_tree::<Expression>(row),
        "tokens" => check_tokens(row),
        "dialect" => check_dialect(row),
        "nesting" => check_nesting(row, &text),
        "template" => check_template(row, &text),
        "discover" => check_lists(row, &text),
        "path" => check_path(row, &text),
        read => match read.strip_prefix("minify ") {
            Some(choice) => check_minified(row, &text, choice),
            None => return false,
        },
    }
    true
}

/// Each row holds. They run with more stack than a test has, since some texts nest deeply.
#[test]
fn rows_hold() {
    let run = || rows().iter().filter(|row| check_row(row)).count();
    let builder = std::thread::Builder::new().stack_size(256 << 20);
    let count = builder
        .spawn(run)
        .expect("a thread")
        .join()
        .expect("each row holds");
    assert!(count > 1_800, "only {count} rows were read");
}
