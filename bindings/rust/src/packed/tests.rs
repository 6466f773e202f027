//! That packed forms are those of the library, are read as the trees that it reads, and print as
//! their rules say.

use super::machine::print_of;
use super::rules::{I32, INT, U32, UNIT};
use super::{from_packed, to_packed, Made, Packed, Random, Unpacked, Writer, DEEPEST};
use crate::calls;
use crate::form::sealed::Numbered;
use crate::form::{Form, Source};
use crate::span::{equal_with_spans, Span, Spanned};
use crate::syntax::*;
use std::path::Path;

/// How many levels of spans a tree has that is made at random.
const LEVELS: usize = 5;

/// How many kilobytes of stack a form takes at most.
const STACK: usize = 1024;

/// How many trees of a type are made.
const TREES: u64 = 200;

/// Returns the packed form of a tree, with its spans.
fn with_spans<T: Packed>(tree: &T) -> Vec<u8> {
    let mut form = Writer::new(true);
    tree.pack_ended(&mut form);
    form.finish()
}

/// Checks that the library prints the packed form of a tree as its rules say.
fn check_print<T: Packed>(tree: &T) {
    let printed = calls::print_of(&to_packed(tree)).expect("memory");
    for form in [to_packed(tree), with_spans(tree)] {
        assert_eq!(print_of(&form).as_deref(), Some(&*printed));
    }
}

/// Checks that a tree is read from its packed form.
fn check_read<T: Form + Packed + Unpacked>(tree: &T) {
    let read: T = from_packed(&with_spans(tree)).expect("the packed form of a tree");
    assert!(equal_with_spans(&read, tree));
}

/// Checks that a tree is read from its packed form, and how that prints.
fn check<T: Form + Packed + Unpacked>(tree: &T) {
    check_read(tree);
    check_print(tree);
}

/// Checks the tree of a text: that its packed form is that which the library writes.
fn check_text<T: Source + Packed>(text: &str) {
    let packed = calls::packed_form_of(T::NUMBER, text, calls::DEPTH).expect(text);
    let tree: T = from_packed(&packed).expect(text);
    assert!(with_spans(&tree) == packed, "{text}");
    check(&tree);
}

/// Returns the texts of the shaders in a folder.
fn shaders(folder: &str) -> Vec<String> {
    let folder = Path::new(env!("CARGO_MANIFEST_DIR")).join(folder);
    let files = folder.read_dir().expect("the folder is there");
    let files = files.map(|file| file.expect("a file").path());
    let shaders = files.filter(|file| file.extension().is_some_and(|it| it == "wgsl"));
    shaders
        .map(|file| std::fs::read_to_string(file).expect("a text"))
        .collect()
}

#[test]
fn trees_of_shaders_have_packed_forms() {
    let folders = ["tests", "../../examples", "../../examples/printed"];
    let mut count = 0;
    for text in folders.iter().flat_map(|folder| shaders(folder)) {
        check_text::<TranslationUnit>(&text);
        count += 1;
    }
    assert!(count > 5, "only {count} shaders were read");
}

/// How often a part is repeated in a text.
const TIMES: usize = 80;

/// Texts with a part that is repeated, and has a longer form than most: what is before it, the
/// part, what is after it, and what closes each.
const DENSE: [(&str, &str, &str, &str); 9] = [
    ("const a=", "!", "a", ""),
    ("const a=", "a+", "a", ""),
    ("const a=", "a.", "a", ""),
    ("const a=", "(", "a", ")"),
    ("const a=", "a[", "a", "]"),
    ("const a=", "a(", "a", ")"),
    ("fn f(){", ";", "}", ""),
    ("fn f(){", "{}", "}", ""),
    ("", ";", "", ""),
];

#[test]
fn packed_forms_fit_the_first_buffer() {
    for (before, part, after, closing) in DENSE {
        let (parts, closing) = (part.repeat(TIMES), closing.repeat(TIMES));
        let text = [before, &parts, after, &closing, ";"].concat();
        let form = calls::packed_form_of(TranslationUnit::NUMBER, &text, calls::DEPTH);
        let form = form.expect(&text);
        assert!(form.len() <= calls::PACKED * text.len(), "{text}");
    }
}

/// Checks trees of a type that are made at random.
fn check_made<T: Made>(check: impl Fn(&T)) {
    for seed in 0..TREES {
        check(&T::made(&mut Random::new(seed, LEVELS)));
    }
}

/// Returns the tree without the attributes of results that are not there, of which nothing is
/// written.
fn without_lost(mut function: Function) -> Function {
    if function.return_type.is_none() {
        function.return_attributes.clear();
    }
    function
}

#[test]
fn trees_made_at_random_have_packed_forms() {
    check_made::<Expression>(check);
    check_made::<Statement>(check);
    check_made::<GlobalDirective>(check);
    check_made::<Function>(|it| check(&GlobalDeclaration::from(without_lost(it.clone()))));
    check_made::<GlobalDeclaration>(|it| {
        if !it.is_function() {
            check(it);
        }
    });
    check_made::<TranslationUnit>(|it| {
        let mut unit = it.clone();
        for declaration in &mut unit.global_declarations {
            if let GlobalDeclaration::Function(function) = declaration.node_mut() {
                *function = without_lost(function.clone());
            }
        }
        check(&unit);
    });
}

#[test]
fn nodes_made_at_random_print_by_their_packed_forms() {
    check_made::<TranslationUnit>(check_print);
    check_made::<GlobalDeclaration>(check_print);
    check_made::<Attribute>(check_print);
    check_made::<StructMember>(check_print);
    check_made::<FormalParameter>(check_print);
    check_made::<DeclarationKind>(check_print);
    check_made::<CaseSelector>(check_print);
    check_made::<IfClause>(check_print);
    check_made::<ElseIfClause>(check_print);
    check_made::<ElseClause>(check_print);
    check_made::<SwitchClause>(check_print);
    check_made::<ContinuingStatement>(check_print);
    check_made::<BreakIfStatement>(check_print);
    check_made::<TypeConstraint>(check_print);
}

/// A form that is cut off or has more after it is not read; one with another byte is read or
/// rejected, without a panic.
#[test]
fn other_bytes_are_no_packed_forms() {
    for seed in 0..200 {
        let tree = TranslationUnit::made(&mut Random::new(seed, LEVELS));
        let mut form = with_spans(&tree);
        for size in 0..form.len() {
            assert_eq!(from_packed::<TranslationUnit>(&form[..size]), None);
        }
        form.push(0);
        assert_eq!(from_packed::<TranslationUnit>(&form), None);
        form.pop();
        let mut random = Random::new(seed, 0);
        for _ in 0..100 {
            let at = random.below(form.len());
            let byte = std::mem::replace(&mut form[at], random.below(256) as u8);
            let _ = from_packed::<TranslationUnit>(&form);
            form[at] = byte;
        }
    }
}

/// Numbers are read only where their place can hold them.
#[test]
fn numbers_fit_their_places() {
    let read = |rule: u8, digits: &str| {
        let size = (digits.len() as u64).to_le_bytes();
        from_packed::<Expression>(&[&[rule], &size[..], digits.as_bytes()].concat())
    };
    for (rule, digits, number) in [
        (U32, "0", LiteralExpression::U32(0)),
        (U32, "4294967295", LiteralExpression::U32(u32::MAX)),
        (I32, "-2147483648", LiteralExpression::I32(i32::MIN)),
        (
            INT,
            "-9223372036854775808",
            LiteralExpression::AbstractInt(i64::MIN),
        ),
    ] {
        assert_eq!(read(rule, digits), Some(number.into()));
    }
    for (rule, digits) in [
        (U32, "4294967296"),
        (U32, "18446744073709551617"),
        (U32, "-1"),
        (U32, "1 "),
        (I32, "2147483648"),
        (I32, "-"),
        (INT, "9223372036854775808"),
        (INT, "0x1"),
    ] {
        assert_eq!(read(rule, digits), None, "{digits}");
    }
}

/// Returns a node with a span of its own.
fn at<T>(level: usize, node: T) -> Spanned<T> {
    Spanned::new(node, Span::new(level..2 * level + 1))
}

/// Returns a `return` of a name in so many blocks.
fn blocks(levels: usize) -> Statement {
    let name = Expression::from(Ident::from("a"));
    let innermost = Statement::from(ReturnStatement::from(name));
    (0..levels).fold(innermost, |inside, level| {
        let expression = Expression::from(true).into();
        let body = CompoundStatement {
            attributes: Vec::new(),
            statements: vec![at(level, inside)],
        };
        Statement::from(IfStatement {
            attributes: Vec::new(),
            if_clause: IfClause { expression, body },
            else_if_clauses: Vec::new(),
            else_clause: None,
        })
    })
}

/// Returns so many sums, each the right operand of another.
fn sums(levels: usize) -> Expression {
    let name = || Expression::from(Ident::from("a"));
    (0..levels).fold(name(), |inside, level| {
        Expression::from(BinaryExpression {
            operator: BinaryOperator::Addition,
            right: at(level, inside),
            left: name().into(),
        })
    })
}

/// Returns so many loops, each after the turns of another.
fn loops(levels: usize) -> Statement {
    (0..levels).fold(Statement::Void, |inside, level| {
        let body = CompoundStatement {
            attributes: Vec::new(),
            statements: vec![at(level, inside)],
        };
        let continuing = ContinuingStatement {
            attributes: Vec::new(),
            body,
            break_if: None,
        };
        Statement::from(LoopStatement {
            attributes: Vec::new(),
            body: CompoundStatement::default(),
            continuing: Some(continuing),
        })
    })
}

/// Returns an empty statement in so many clauses of `switch`.
fn switches(levels: usize) -> Statement {
    (0..levels).fold(Statement::Void, |inside, level| {
        let body = CompoundStatement {
            attributes: Vec::new(),
            statements: vec![at(level, inside)],
        };
        let clause = SwitchClause {
            attributes: Vec::new(),
            case_selectors: vec![CaseSelector::Default],
            body,
        };
        Statement::from(SwitchStatement {
            attributes: Vec::new(),
            expression: Expression::from(true).into(),
            body_attributes: Vec::new(),
            clauses: vec![clause],
        })
    })
}

/// Returns a name as the argument of so many calls.
fn calls(levels: usize) -> Expression {
    let name = || Ident::from("a");
    (0..levels).fold(Expression::from(name()), |inside, level| {
        Expression::from(FunctionCall {
            ty: name().into(),
            arguments: vec![at(level, inside)],
        })
    })
}

/// Returns a name in so many template lists.
fn templates(levels: usize) -> Expression {
    let name = || Ident::from("a");
    (0..levels).fold(Expression::from(name()), |inside, level| {
        let argument = TemplateArg {
            expression: at(level, inside),
        };
        Expression::from(TypeExpression {
            ident: name(),
            template_args: Some(vec![argument]),
        })
    })
}

/// Returns a long chain after so many sums, each the right operand of another.
fn chains(levels: usize) -> Expression {
    let link = |base, level| {
        let (component, base) = (Ident::from("b"), at(level, base));
        Expression::from(NamedComponentExpression { component, base })
    };
    (0..levels).fold(sums(levels), link)
}

/// Runs a test with so many kilobytes of stack.
fn with_stack(kilobytes: usize, test: fn()) {
    let thread = std::thread::Builder::new().stack_size(kilobytes << 10);
    thread.spawn(test).expect("a thread").join().expect("holds");
}

/// How many levels the deepest trees have.
const LEVELS_OF_DEEPEST: usize = 100_000;

/// Checks that trees of many levels are read from their packed forms, and how those print that are
/// not too long.
fn check_levels<T: Form + Packed + Unpacked>(tree: impl Fn(usize) -> T) {
    for levels in [
        DEEPEST,
        DEEPEST + 1,
        2 * DEEPEST,
        2 * DEEPEST + 1,
        5 * DEEPEST,
    ] {
        check(&tree(levels));
    }
    check_read(&tree(LEVELS_OF_DEEPEST));
}

#[test]
fn trees_of_any_depth_are_read_and_written() {
    with_stack(STACK, || {
        check_levels(blocks);
        check_levels(loops);
        check_levels(switches);
        check_levels(sums);
        check_levels(calls);
        check_levels(templates);
        check_levels(chains);
    });
}

/// A deep form that is cut off, has more after it or something else deep inside is not read.
#[test]
fn other_deep_bytes_are_no_packed_forms() {
    with_stack(STACK, || {
        let mut form = to_packed(&calls(10 * DEEPEST));
        for size in (0..form.len()).step_by(97) {
            assert_eq!(from_packed::<Expression>(&form[..size]), None);
        }
        form.push(0);
        assert_eq!(from_packed::<Expression>(&form), None);
        form.pop();
        let innermost = form.iter().rposition(|byte| *byte == b'a').expect("a name") - 9;
        for rule in [U32, UNIT, u8::MAX] {
            let name = std::mem::replace(&mut form[innermost], rule);
            assert_eq!(from_packed::<Expression>(&form), None);
            form[innermost] = name;
        }
        assert_eq!(from_packed(&form), Some(calls(10 * DEEPEST)));
    });
}
