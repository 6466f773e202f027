//! Trees that nest deeply: made by hand and read from texts, with a small stack.

use centrelilac::parse_within;
use centrelilac::span::equal_with_spans;
use centrelilac::syntax::*;
use std::collections::hash_map::DefaultHasher;
use std::hash::{Hash, Hasher};

/// How deep the trees are.
const LEVELS: usize = 100_000;

/// Runs a test with so many kilobytes of stack.
fn with_stack(kilobytes: usize, test: fn()) {
    let thread = std::thread::Builder::new().stack_size(kilobytes << 10);
    thread.spawn(test).expect("a thread").join().expect("holds");
}

/// Returns the hash of a tree.
fn hash_of(tree: &impl Hash) -> u64 {
    let mut hasher = DefaultHasher::new();
    tree.hash(&mut hasher);
    hasher.finish()
}

/// Returns a name in parentheses.
fn parentheses(name: &str) -> Expression {
    let name = Expression::from(Ident::from(name));
    (0..LEVELS).fold(name, |inside, at| {
        let expression = Spanned::new(inside, Span::new(at..at + 1));
        ParenthesizedExpression { expression }.into()
    })
}

/// Returns a sum that begins with a name.
fn sum(name: &str) -> Expression {
    let name = Expression::from(Ident::from(name));
    (0..LEVELS).fold(name, |left, number| {
        Expression::from(BinaryExpression {
            operator: BinaryOperator::Addition,
            right: Expression::from(number as i64).into(),
            left: left.into(),
        })
    })
}

/// Returns a `return` of a name in blocks and `if` statements, in turn, each after some empty
/// statements.
fn blocks(name: &str, voids: usize) -> Statement {
    let name = Expression::from(Ident::from(name));
    let innermost = Statement::from(ReturnStatement::from(name));
    (0..LEVELS).fold(innermost, |inside, level| {
        let body = CompoundStatement {
            attributes: Vec::new(),
            statements: std::iter::repeat_n(Statement::Void, voids)
                .chain([inside])
                .map(StatementNode::from)
                .collect(),
        };
        if level % 2 == 0 {
            return body.into();
        }
        let expression = Expression::from(true).into();
        Statement::from(IfStatement {
            attributes: Vec::new(),
            if_clause: IfClause { expression, body },
            else_if_clauses: Vec::new(),
            else_clause: None,
        })
    })
}

/// Returns a module with a statement in a function.
fn module_of(statement: Statement) -> TranslationUnit {
    let mut function = Function::new(Ident::from("f"));
    function.body.statements.push(statement.into());
    let mut unit = TranslationUnit::new();
    let function = GlobalDeclaration::from(function);
    unit.global_declarations.push(function.into());
    unit
}

/// Checks that a tree is copied, compared, hashed and dropped, and differs from another.
fn check<T>(tree: T, other: T)
where
    T: centrelilac::form::Form + Clone + Eq + Hash,
{
    let (copy, hash) = (tree.clone(), hash_of(&tree));
    assert!(copy == tree && equal_with_spans(&copy, &tree));
    assert!(tree != other && hash != hash_of(&other));
    assert_eq!(hash_of(&copy), hash);
    drop((tree, copy));
}

#[test]
fn deep_expressions_take_little_stack() {
    with_stack(512, || check(parentheses("a"), parentheses("b")));
    with_stack(512, || check(sum("a"), sum("b")));
}

#[test]
fn deep_statements_take_little_stack() {
    with_stack(512, || check(blocks("a", 1), blocks("b", 1)));
    with_stack(512, || {
        let mut unit = module_of(blocks("a", 1));
        assert!(unit.clone() == unit);
        unit.remove_voids();
        assert!(unit == module_of(blocks("a", 0)));
    });
}

/// The spans are compared at every depth.
#[test]
fn spans_are_compared_where_they_are_asked_for() {
    with_stack(512, || {
        let tree = parentheses("a");
        let mut other = tree.clone();
        let mut inside = &mut other;
        while let Expression::Parenthesized(node) = inside {
            if node.expression.is_type_or_identifier() {
                node.expression.span = Span::new(7..9);
            }
            inside = &mut *node.expression;
        }
        assert!(tree == other && hash_of(&tree) == hash_of(&other));
        assert!(!equal_with_spans(&tree, &other));
    });
}

/// Trees that are made by hand are printed with the same stack however deep they are.
#[test]
fn deep_trees_are_printed() {
    with_stack(1 << 10, || {
        let text = ["(".repeat(LEVELS), "a".into(), ")".repeat(LEVELS)].concat();
        assert!(parentheses("a").to_string() == text);
        assert!(sum("a").to_string().ends_with(" + 99998 + 99999"));
    });
}

/// The library reads a chain without recursion, and takes stack to read what nests.
#[test]
fn deep_texts_are_read_and_printed() {
    with_stack(512, || {
        let text = vec!["a"; LEVELS].join(" + ");
        let chain: Expression = text.parse().expect("a chain");
        assert_eq!(chain.clone(), chain);
        assert!(chain.to_string() == text);
        let text = format!("a{}", ".b[0]".repeat(LEVELS));
        let chain: Expression = text.parse().expect("a chain");
        assert!(chain.to_string() == text);
    });
    with_stack(256 << 10, || {
        let nested = |open: &str, inside: &str, close: &str, levels: usize| {
            [&open.repeat(levels), inside, &close.repeat(levels)].concat()
        };
        let text = nested("(", "a", ")", 10_000);
        let parentheses: Expression = parse_within(&text, 10_000).expect("an expression");
        assert!(parentheses.to_string() == text);
        let blocks = nested("if a {", "", "}", 10_000);
        assert!(parse_within::<Statement>(&blocks, 10_000).is_ok());
        // the print of each level is indented
        let blocks = nested("if a {", "", "}", 500);
        let blocks: Statement = parse_within(&blocks, 500).expect("a statement");
        assert!(parse_within(&blocks.to_string(), 500) == Ok(blocks));
    });
}

/// Checks that each call reads what nests so deep on a thread with a megabyte of stack.
fn read_all_kinds(levels: usize) {
    for (open, inside, close) in [
        ("(", "a", ")"),
        ("a[", "b", "]"),
        ("!", "a", ""),
        ("a<", "b", ">"),
    ] {
        let text = [&open.repeat(levels), inside, &close.repeat(levels)].concat();
        assert!(text.parse::<Expression>().is_ok());
        read_module(&format!("const a = {text};"));
    }
    for open in ["{", "if a {", "loop {", "while a {"] {
        let levels = levels - 1;
        read_module(&format!(
            "fn f() {{{}{}}}",
            open.repeat(levels),
            "}".repeat(levels)
        ));
    }
}

/// Makes each call over a module.
fn read_module(text: &str) {
    assert_eq!(centrelilac::check(text), Ok(()));
    assert!(centrelilac::recognize(text).is_ok());
    assert!(centrelilac::format(text).is_ok());
    assert!(centrelilac::tidy(text).is_ok());
    assert!(centrelilac::minify(text, &Default::default()).is_ok());
    assert!(centrelilac::parse(text).is_ok());
    assert!(centrelilac::form::text_form::<TranslationUnit>(text).is_ok());
}

#[test]
fn texts_that_are_not_too_deep_take_a_megabyte_of_stack() {
    with_stack(1 << 10, || read_all_kinds(centrelilac::DEPTH));
}

/// Each call returns a fault of what nests deeper, with its place.
#[test]
fn texts_that_are_too_deep_are_faults() {
    with_stack(1 << 10, || {
        let text = format!("const a = {}1{};", "(".repeat(LEVELS), ")".repeat(LEVELS));
        let options = centrelilac::MinifyOptions::default();
        let faults = [
            centrelilac::check(&text).unwrap_err(),
            centrelilac::recognize(&text).unwrap_err(),
            centrelilac::format(&text).unwrap_err(),
            centrelilac::tidy(&text).unwrap_err(),
            centrelilac::minify(&text, &options).unwrap_err(),
            centrelilac::parse(&text).unwrap_err(),
            text.parse::<GlobalDeclaration>().unwrap_err(),
        ];
        for fault in faults {
            assert_eq!(fault.kind, centrelilac::FaultKind::TooDeep);
            assert_eq!(fault.span, Span::new(210..211));
            assert_eq!(
                fault.to_string(),
                "line 1, column 211: nests deeper than 200 levels"
            );
        }
    });
}
