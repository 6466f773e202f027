//! Minified modules whose options or names no row has.

use centrelilac::{minify, MinifyOptions, Names};

/// Returns the text of a module whose names on this list stay, and the names that do not.
fn minified(text: &str, keep: &[&str]) -> (String, Vec<String>) {
    let names = Names::All;
    let minified = minify(text, &MinifyOptions { names, keep }).expect("a module");
    let names = minified.names.into_iter().map(|(name, _)| name);
    (minified.text, names.collect())
}

#[test]
fn names_are_kept_each_by_itself() {
    let text = "const size = 1; const last = size;";
    let kept = |keep: &[&str]| minified(text, keep);
    assert_eq!(
        kept(&[]),
        (
            "const a=1;const b=a;".into(),
            vec!["size".into(), "last".into()]
        )
    );
    assert_eq!(
        kept(&["other", "size"]),
        ("const size=1;const a=size;".into(), vec!["last".into()])
    );
    assert_eq!(
        kept(&["size", "last"]),
        ("const size=1;const last=size;".into(), vec![])
    );
}

#[test]
fn a_text_with_a_line_break_keeps_no_name() {
    for keep in ["size\nlast", "size\r", "\nsize", ""] {
        let (text, names) = minified("const size = 1;", &[keep]);
        assert_eq!((text.as_str(), names.len()), ("const a=1;", 1), "{keep:?}");
    }
}

#[test]
fn names_may_have_any_letters() {
    let (text, names) = minified("const größe = 1; const 大きさ = größe;", &[]);
    assert_eq!(text, "const a=1;const b=a;");
    assert_eq!(names, ["größe", "大きさ"]);
}

#[test]
fn a_result_is_longer_than_the_first_buffer() {
    let text: String = (0..500).map(|n| format!("const c{n}=1;")).collect();
    let minified = minify(&text, &MinifyOptions::default()).expect("a module");
    assert_eq!(minified.names.len(), 500);
    assert!(minified.text.len() < text.len());
    let last = minified.names.iter().find(|(name, _)| name == "c499");
    let (_, last) = last.expect("each name gets a new one");
    assert!(minified.text.ends_with(&format!("const {last}=1;")));
}
