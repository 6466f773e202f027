//! What the example `lint` finds.

#[allow(dead_code)]
#[path = "../examples/lint.rs"]
mod lint;

/// Returns the lines of a text where it finds something, with the columns.
fn places(text: &str) -> Vec<String> {
    let lines = centrelilac::LineIndex::new(text);
    let found = lint::lint(text).expect("a module");
    let place = |span: &centrelilac::span::Span| lines.position(span.start).to_string();
    found.iter().map(place).collect()
}

#[test]
fn comparisons_of_floats_are_found() {
    let text = "const eps = 0.5;
fn f(a: f32, b: i32) {
    let c = a * 2;
    if a == 1 { }
    if b == 1 { } else if (b == 2) || (c == a) { }
    if b == 1.5 { if late == 1 { } }
    if a < 1.0 && b == 3 { return; }
    if true { let b = 1f; if b == 1 { } }
    if b == 1 { }
}
var<private> late: f32;
fn g(b: i32) { if b == 1 { } if -eps == f32(b) { } if a == b { } }
";
    let wanted = ["4:8", "5:40", "6:8", "6:22", "8:30", "12:33"];
    assert_eq!(places(text), wanted);
}

/// What is declared is known up to the end of its block, and before that in place of what is
/// declared outside.
#[test]
fn names_are_known_in_their_blocks() {
    let text = "var<private> x: i32;
fn f() {
    for (var x = 0.5; x < 2; x += 0.5) { if x == 1 { } }
    if x == 1 { }
    loop {
        let x = 1f;
        continuing { if x == 1 { } }
    }
    if x == 1 { }
    { let x = 1f; { let x = 1; if x == 1 { } } if x == 1 { } }
}
";
    assert_eq!(places(text), ["3:45", "7:25", "10:51"]);
}

#[test]
fn other_statements_are_left_alone() {
    let text = "fn f(a: f32) { let b = a == 1.0; while a == 2.0 { } switch 1 { default { } } }";
    assert!(places(text).is_empty());
    assert!(lint::lint("fn f(").is_err());
}
