//! Visitors: the order, what is visited, and changes.

use centrelilac::syntax::*;
use centrelilac::visit::{Accept, Visit, VisitMut, Walk};
use std::collections::BTreeMap;

/// A text with each kind of node.
const EVERY_KIND: &str = include_str!("every_kind.wgsl");

/// The names and literals, in the order of visits.
#[derive(Default)]
struct Words(Vec<String>);

impl<'t> Visit<'t> for Words {
    fn visit_ident(&mut self, ident: &'t Ident) {
        self.0.push(ident.to_string());
    }

    fn visit_literal_expression(&mut self, literal: &'t LiteralExpression) {
        if let LiteralExpression::AbstractInt(number) = literal {
            self.0.push(number.to_string());
        }
    }
}

/// Returns the words of a tree.
fn words(tree: &impl Accept) -> String {
    let mut words = Words::default();
    tree.accept(&mut words);
    words.0.join(" ")
}

#[test]
fn nodes_are_visited_in_the_order_of_the_text() {
    let in_order = |text: &str| {
        text.split(|c: char| !c.is_ascii_alphanumeric())
            .filter(|word| !word.is_empty())
            .collect::<Vec<_>>()
            .join(" ")
    };
    for text in [
        "a + b * c - d",
        "a[b + 1].c[d]",
        "a.b.c[d.e][f]",
        "f(a, -b, (c))[d]",
        "a<b, c>(d)",
    ] {
        let tree = text.parse::<Expression>().unwrap();
        assert_eq!(words(&tree), in_order(text), "{text}");
    }
    let statement = "{ a = b; c[d] += e; f(g); h++; }";
    assert_eq!(
        words(&statement.parse::<Statement>().unwrap()),
        in_order(statement)
    );
    let text = "if a { return b; } else if c { d(); } else { e(); }";
    assert_eq!(words(&text.parse::<Statement>().unwrap()), "a b c d e");
    let text = "for (var i: t = 0; i < 9; i++) { @size(1) { } }";
    assert_eq!(words(&text.parse::<Statement>().unwrap()), "i t 0 i 9 i 1");
    let text = "switch a { case 1, b { c(); } default { d(); } }";
    assert_eq!(words(&text.parse::<Statement>().unwrap()), "a 1 b c d");
    let text = "loop { a(); continuing { b(); break if c; } }";
    assert_eq!(words(&text.parse::<Statement>().unwrap()), "a b c");
    let text = "@workgroup_size(1, 2, 3) fn f(@location(4) a: b) -> @location(5) c { d(); }";
    assert_eq!(
        words(&text.parse::<GlobalDeclaration>().unwrap()),
        "1 2 3 f 4 a b 5 c d"
    );
}

/// The starts of nodes with spans never go back, except from a node to what it begins with.
struct Starts {
    at: usize,
    count: usize,
}

impl Starts {
    fn note(&mut self, span: Span) {
        assert!(self.at <= span.start, "{span} after {}", self.at);
        self.at = span.start;
        self.count += 1;
    }
}

impl<'t> Visit<'t> for Starts {
    fn visit_global_declaration_node(&mut self, node: &'t GlobalDeclarationNode) {
        self.note(node.span());
        node.walk(self);
    }

    fn visit_struct_member_node(&mut self, node: &'t StructMemberNode) {
        self.note(node.span());
        node.walk(self);
    }

    fn visit_attribute_node(&mut self, node: &'t AttributeNode) {
        self.note(node.span());
        node.walk(self);
    }

    fn visit_statement_node(&mut self, node: &'t StatementNode) {
        self.note(node.span());
        node.walk(self);
    }

    fn visit_expression_node(&mut self, node: &'t ExpressionNode) {
        self.note(node.span());
        node.walk(self);
    }
}

#[test]
fn every_kind_is_visited_in_the_order_of_its_span() {
    let unit = centrelilac::parse(EVERY_KIND).unwrap();
    let mut starts = Starts { at: 0, count: 0 };
    starts.visit_translation_unit(&unit);
    let json = centrelilac::form::text_form::<TranslationUnit>(EVERY_KIND).unwrap();
    let spans = ["\"span\":[", "\"base\":[", "\"left\":["];
    let count = spans.map(|span| json.matches(span).count()).iter().sum();
    assert_eq!(starts.count, count);
}

/// How often each function is called, by the names in the tree.
#[derive(Default)]
struct Calls<'t>(BTreeMap<&'t str, usize>);

impl<'t> Visit<'t> for Calls<'t> {
    fn visit_function_call(&mut self, call: &'t FunctionCall) {
        *self.0.entry(call.ty.ident.name()).or_default() += 1;
        call.walk(self);
    }
}

#[test]
fn a_visitor_keeps_what_it_is_given() {
    let unit = centrelilac::parse("fn f() { g(g(h())); let a = i(1)[g(2)]; }").unwrap();
    let mut calls = Calls::default();
    calls.visit_translation_unit(&unit);
    assert_eq!(calls.0, BTreeMap::from([("g", 3), ("h", 1), ("i", 1)]));
}

/// Puts a letter before each name, but not before components.
struct Mangle;

impl VisitMut for Mangle {
    fn visit_ident_mut(&mut self, ident: &mut Ident) {
        ident.rename(format!("_{ident}"));
    }

    fn visit_named_component_expression_mut(&mut self, node: &mut NamedComponentExpression) {
        node.base.accept_mut(self);
    }
}

#[test]
fn a_visitor_changes_nodes() {
    let mut unit = centrelilac::parse(
        "alias A = vec4<f>; @type(T, i) fn f(a: A) -> A { var b = a.x; b++; return f(b).x[a]; }",
    )
    .unwrap();
    Mangle.visit_translation_unit_mut(&mut unit);
    let wanted = "alias _A = _vec4<_f>; @type(_T, _i) fn _f(_a: _A) -> _A
        { var _b = _a.x; _b++; return _f(_b).x[_a]; }";
    assert_eq!(unit, centrelilac::parse(wanted).unwrap());
}

/// The spans of expressions.
#[derive(Default)]
struct Spans(Vec<Span>);

impl<'t> Visit<'t> for Spans {
    fn visit_expression_node(&mut self, node: &'t ExpressionNode) {
        self.0.push(node.span());
        node.walk(self);
    }
}

/// Removes the spans of expressions.
struct Unplaced;

impl VisitMut for Unplaced {
    fn visit_expression_node_mut(&mut self, node: &mut ExpressionNode) {
        node.span = Span::default();
        node.walk_mut(self);
    }
}

#[test]
fn a_visitor_changes_spans_and_lists() {
    let mut call: Expression = "f(a, b + c)".parse().unwrap();
    let before = call.clone();
    let Expression::FunctionCall(node) = &mut call else {
        panic!("no call");
    };
    node.arguments.accept_mut(&mut Unplaced);
    assert_eq!(call, before);
    assert!(!centrelilac::span::equal_with_spans(&call, &before));
    let mut unplaced = Spans::default();
    unplaced.visit_expression(&call);
    assert_eq!(unplaced.0, [Span::default(); 4]);
}
