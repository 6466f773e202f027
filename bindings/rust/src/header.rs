//! That the numbers here are those of `wgsl.h`.

use crate::calls::{DEPTH, DONE, REFUSED, TOO_DEEP, TOO_SMALL};
use crate::fault::FaultKind;
use crate::form::sealed::Numbered;
use crate::minified::Names;
use crate::syntax::*;

const HEADER: &str = include_str!("../../../include/wgsl.h");

/// The names of an enum of the header, each with its number, without `WGSL_`.
fn numbers(name: &str) -> Vec<(&'static str, usize)> {
    let (_, inside) = HEADER
        .split_once(&format!("enum {name} {{\n"))
        .expect("the enum is in the header");
    let (inside, _) = inside.split_once("};").expect("the enum ends");
    let lines = inside.lines().map(|line| line.trim().trim_end_matches(','));
    let pairs = lines.filter_map(|line| line.strip_prefix("WGSL_")?.split_once(" = "));
    pairs
        .map(|(name, number)| (name, number.parse().expect("a number")))
        .collect()
}

#[test]
fn kinds_have_the_numbers_of_the_header() {
    let here = [
        ("UNIT", TranslationUnit::NUMBER),
        ("DIRECTIVE", GlobalDirective::NUMBER),
        ("DECLARATION", GlobalDeclaration::NUMBER),
        ("STATEMENT", Statement::NUMBER),
        ("EXPRESSION", Expression::NUMBER),
    ];
    let here = here.map(|(name, number)| (name, number as usize));
    assert_eq!(numbers("wgsl_tree_kind"), here);
}

#[test]
fn choices_of_names_have_the_numbers_of_the_header() {
    let here = [
        ("NO_NAMES", Names::None),
        ("LOCAL_NAMES", Names::Locals),
        ("ALL_NAMES", Names::All),
    ];
    let here = here.map(|(name, names)| (name, names as usize));
    assert_eq!(numbers("wgsl_names"), here);
}

#[test]
fn statuses_and_faults_have_the_numbers_of_the_header() {
    let statuses = numbers("wgsl_status");
    for (name, number) in [
        ("DONE", DONE),
        ("REFUSED", REFUSED),
        ("TOO_SMALL", TOO_SMALL),
        ("TOO_DEEP", TOO_DEEP),
    ] {
        assert!(statuses.contains(&(name, number as usize)), "{name}");
    }
    // each packed form that this crate writes is printed
    let faults: Vec<_> = numbers("wgsl_fault")
        .into_iter()
        .filter(|(name, _)| *name != "NOT_A_FORM")
        .map(|(_, it)| it)
        .collect();
    assert_eq!(faults, FaultKind::NUMBERED.map(|(number, _)| number));
}

#[test]
fn texts_may_nest_as_deep_as_the_header_says() {
    assert!(HEADER.contains(&format!("\n#define WGSL_DEPTH {DEPTH}\n")));
}
