//! The JSON of texts.

use centrelilac::form::text_form;
use centrelilac::syntax::{Expression, GlobalDeclaration, Statement};

#[test]
fn names_are_strings() {
    assert_eq!(text_form::<Expression>("a"), Ok(r#""a""#.into()));
    let vector = r#"{"Template":{"ident":"vec2","template_args":[{"span":[5,8],"node":"f32"}]}}"#;
    assert_eq!(text_form::<Expression>("vec2<f32>"), Ok(vector.into()));
}

#[test]
fn numbers_are_numbers() {
    for (number, json) in [
        ("0u", r#"{"U32":0}"#),
        ("4294967295u", r#"{"U32":4294967295}"#),
        ("0x7fffffffi", r#"{"I32":2147483647}"#),
        (
            "9223372036854775807",
            r#"{"AbstractInt":9223372036854775807}"#,
        ),
        ("1.50", r#"{"AbstractFloat":"1.50"}"#),
        ("1e9f", r#"{"F32":"1e9"}"#),
    ] {
        let json = format!(r#"{{"Literal":{json}}}"#);
        assert_eq!(text_form::<Expression>(number), Ok(json), "{number}");
    }
}

/// Each link of a chain has the span of what is before it.
#[test]
fn operations_are_chains() {
    let json = r#"{"Chain":["a",{"NamedComponent":{"base":[0,1],"component":"b"}},"#.to_owned()
        + r#"{"Binary":{"left":[0,3],"operator":"+","right":{"span":[6,7],"node":"c"}}}]}"#;
    assert_eq!(text_form::<Expression>("a.b + c"), Ok(json));
}

/// What is left out is `null`, and a list without items has its brackets.
#[test]
fn parts_are_left_out() {
    let json = r#"{"Return":{"attributes":[],"expression":null}}"#;
    assert_eq!(text_form::<Statement>("return;"), Ok(json.into()));
    let json = r#"{"For":{"attributes":[],"initializer":null,"condition":null,"update":null,"#
        .to_owned()
        + r#""body":{"Compound":{"attributes":[],"statements":[]}}}}"#;
    assert_eq!(text_form::<Statement>("for (;;) {}"), Ok(json));
}

/// There are commas between the items of a list, whatever their rules are.
#[test]
fn items_have_commas_between_them() {
    let json = r#"{"Compound":{"attributes":[],"statements":["#.to_owned()
        + r#"{"span":[2,3],"node":{"Void":{"attributes":[]}}},"#
        + r#"{"span":[4,12],"node":{"Discard":{"attributes":[]}}},"#
        + r#"{"span":[13,19],"node":{"Break":{"attributes":[]}}}]}}"#;
    assert_eq!(text_form::<Statement>("{ ; discard; break; }"), Ok(json));
}

#[test]
fn a_binding_has_json() {
    let json = r#"{"Declaration":{"attributes":["#.to_owned()
        + r#"{"span":[0,9],"node":{"group":{"span":[7,8],"node":{"Literal":{"AbstractInt":0}}}}}],"#
        + r#""kind":{"var":["storage","read_write"]},"ident":"a","#
        + r#""ty":{"Template":{"ident":"array","template_args":[{"span":[44,47],"node":"f32"}]}},"#
        + r#""initializer":null}}"#;
    let text = "@group(0) var<storage, read_write> a: array<f32>;";
    assert_eq!(text_form::<GlobalDeclaration>(text), Ok(json));
}
