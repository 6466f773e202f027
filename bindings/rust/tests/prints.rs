//! What nodes print: as the rows say, to texts that parse to them again, and by themselves.

mod row;
mod text;

use centrelilac::syntax::*;
use centrelilac::visit::{Accept, Visit, Walk};
use row::{rows, Row};
use std::collections::BTreeSet;
use std::fmt::Display;
use std::str::FromStr;
use text::texts_of;

/// Returns the print of a text, unless the text has a fault.
fn print_of<T: FromStr + Display>(text: &str) -> Option<String> {
    text.parse::<T>().ok().map(|tree| tree.to_string())
}

/// Checks what the tree of a row prints, and returns whether it has one.
fn check_row(row: &Row) -> bool {
    let text = std::str::from_utf8(&row.text).unwrap_or_default();
    let print = match row.read.as_str() {
        "unit" => print_of::<TranslationUnit>(text),
        "directive" => print_of::<GlobalDirective>(text),
        "declaration" => print_of::<GlobalDeclaration>(text),
        "statement" => print_of::<Statement>(text),
        "expression" => print_of::<Expression>(text),
        _ => None,
    };
    let Some(print) = print else { return false };
    if row.read == "unit" {
        assert_eq!(centrelilac::format(text), Ok(print), "{}", row.place);
    } else {
        let wanted = texts_of(row.wanted("printed").expect(&row.place));
        assert_eq!(print.as_bytes(), wanted, "{}", row.place);
    }
    true
}

/// Each tree of a row prints as the row says, and a module as its text is formatted. They run with
/// more stack than a test has, since some texts nest deeply.
#[test]
fn trees_print_as_rows_say() {
    let run = || rows().iter().filter(|row| check_row(row)).count();
    let builder = std::thread::Builder::new().stack_size(256 << 20);
    let thread = builder.spawn(run).expect("a thread");
    let count = thread.join().expect("each row holds");
    assert!(count > 450, "only {count} trees were printed");
}

/// Prints each node that it visits, and notes the kinds of these.
#[derive(Default)]
struct Prints(BTreeSet<&'static str>);

impl Prints {
    /// Checks that the print of a node is read as the node.
    fn check<T: PartialEq + Display>(&mut self, kind: &'static str, node: &T, read: Option<T>) {
        assert!(read.as_ref() == Some(node), "{kind}: {node}");
        self.0.insert(kind);
    }
}

/// Reads the print of each kind of node again, in a text around it.
macro_rules! prints_in {
    ($($visit:ident $name:ident: $whole:ident $before:literal $after:literal,)*) => {
        impl<'t> Visit<'t> for Prints {
            $(
                fn $visit(&mut self, node: &'t $name) {
                    /// The first node of the kind.
                    struct First(Option<$name>);

                    impl<'t> Visit<'t> for First {
                        fn $visit(&mut self, node: &'t $name) {
                            self.0.get_or_insert_with(|| node.clone());
                        }
                    }

                    let text = [$before, &node.to_string(), $after].concat();
                    // the left side of `_ = a;` is read nowhere else
                    if text == "_" {
                        return;
                    }
                    let whole: $whole = text.parse().expect(&text);
                    let mut first = First(None);
                    whole.accept(&mut first);
                    self.check(stringify!($name), node, first.0);
                    node.walk(self);
                }
            )*

            fn visit_declaration(&mut self, node: &'t Declaration) {
                let text = node.to_string();
                let read = if node.kind.is_let() {
                    text.parse().map(Statement::unwrap_declaration)
                } else {
                    text.parse().map(GlobalDeclaration::unwrap_declaration)
                };
                self.check("Declaration", node, read.ok());
                assert!(text.contains(&format!("{} {}", node.kind, node.ident)));
                self.0.insert("DeclarationKind");
                node.walk(self);
            }
        }
    };
}

/// Reads the prints of nodes again: of those of a list, and of those that are read in a text around
/// them, or as one of several kinds.
macro_rules! prints {
    ($($visit:ident $name:ident: $whole:ident,)*) => {
        prints_in! {
            $($visit $name: $whole "" "",)*
            visit_translation_unit TranslationUnit: TranslationUnit "" "",
            visit_global_directive GlobalDirective: GlobalDirective "" "",
            visit_global_declaration GlobalDeclaration: GlobalDeclaration "" "",
            visit_struct_member StructMember: GlobalDeclaration "struct S { " " }",
            visit_formal_parameter FormalParameter: GlobalDeclaration "fn f(" ") {}",
            visit_const_assert ConstAssert: GlobalDeclaration "" "",
            visit_attribute Attribute: GlobalDeclaration "fn f() -> " " a {}",
            visit_type_constraint TypeConstraint: GlobalDeclaration "@type(" ") fn f() {}",
            visit_expression Expression: Expression "" "",
            visit_template_arg TemplateArg: Expression "a<" ">",
            visit_statement Statement: Statement "" "",
            visit_if_clause IfClause: Statement "" "",
            visit_else_if_clause ElseIfClause: Statement "if a {} " "",
            visit_else_clause ElseClause: Statement "if a {} " "",
            visit_switch_clause SwitchClause: Statement "switch a { " " }",
            visit_case_selector CaseSelector: Statement "switch a { case " ": {} }",
            visit_continuing_statement ContinuingStatement: Statement "loop { " " }",
            visit_break_if_statement BreakIfStatement: Statement "loop { continuing { " " } }",
        }
    };
}

// after the macros that it uses
mod node_prints;

/// The list of what is printed, in which each indented line begins with a kind of node.
const LIST: &str = include_str!("../src/syntax/prints/node_prints.rs");

/// A text with each kind of node.
const EVERY_KIND: &str = include_str!("every_kind.wgsl");

#[test]
fn each_kind_of_node_prints_to_a_text_that_parses_to_it() {
    let mut unit = centrelilac::parse(EVERY_KIND).expect("a module");
    unit.remove_voids();
    let mut prints = Prints::default();
    unit.accept(&mut prints);
    let lines = LIST.lines().filter_map(|line| line.strip_prefix("    "));
    let listed = lines.filter_map(|line| line.split(' ').next());
    let wanted: BTreeSet<_> = listed.chain(["TemplateArg"]).collect();
    assert_eq!(prints.0, wanted);
}

/// Returns a name as an expression.
fn name(name: &str) -> Expression {
    Expression::from(Ident::from(name))
}

/// Checks what a node prints.
#[track_caller]
fn check(node: impl Display, print: &str) {
    assert_eq!(node.to_string(), print);
}

#[test]
fn declarations_made_by_hand_are_printed() {
    check(TranslationUnit::new(), "\n");
    check(GlobalDeclaration::Void, ";");
    let alias = TypeAlias::new(Ident::from("A"), TypeExpression::new(Ident::from("B")));
    check(alias, "alias A = B;");
    check(ConstAssert::new(true.into()), "const_assert true;");

    let mut member = StructMember::new(Ident::from("a"), Ident::from("f32").into());
    check(&member, "a: f32");
    let size = Attribute::Size(Expression::from(16i64).into());
    check(&size, "@size(16)");
    member.attributes.push(size.into());
    let mut structure = Struct::new(Ident::from("S"));
    structure.members.push(member.into());
    let printed_structure = "struct S {\n    @size(16)\n    a: f32\n}";
    check(&structure, printed_structure);

    let mut function = Function::new(Ident::from("f"));
    check(&function, "fn f() {\n\n}");
    let parameter = FormalParameter::new(Ident::from("p"), Ident::from("S").into());
    check(&parameter, "p: S");
    function.parameters.push(parameter);
    function.return_type = Some(Ident::from("f32").into());
    let result = Statement::from(ReturnStatement::from(name("p")));
    function.body.statements.push(result.into());
    let printed_function = "fn f(p: S) -> f32 {\n    return p;\n}";
    check(&function, printed_function);

    let declarations = [structure.into(), GlobalDeclaration::Void, function.into()];
    let mut unit = TranslationUnit::new();
    unit.global_declarations = declarations.map(GlobalDeclarationNode::from).into();
    check(
        unit,
        &format!("{printed_structure}\n\n{printed_function}\n"),
    );
}

#[test]
fn expressions_made_by_hand_are_printed() {
    check(Expression::from(i64::MIN), "-9223372036854775808");
    check(LiteralExpression::from(i32::MIN), "-2147483648i");
    check(LiteralExpression::from(u32::MAX), "4294967295u");
    check(LiteralExpression::F16("1e3".into()), "1e3h");
    let component = NamedComponentExpression {
        component: Ident::from("x"),
        base: Expression::from(1i64).into(),
    };
    check(component, "1 .x");
    let minus = |operand: Expression| {
        let (operator, operand) = (UnaryOperator::Negation, operand.into());
        Expression::from(UnaryExpression { operator, operand })
    };
    check(minus(minus(name("a"))), "- -a");
    let call = FunctionCall {
        ty: Ident::from("f").into(),
        arguments: vec![name("a").into(), name("b").into()],
    };
    check(&call, "f(a, b)");
    let sum = BinaryExpression {
        operator: BinaryOperator::Addition,
        right: Expression::from(call).into(),
        left: minus(name("c")).into(),
    };
    check(sum, "-c + f(a, b)");
    let constraint = TypeConstraint::from((Ident::from("T"), vec![Ident::from("f32").into()]));
    check(&constraint, "T, f32");
    check(Attribute::from(constraint), "@type(T, f32)");
}

#[test]
fn statements_made_by_hand_are_printed() {
    check(Statement::Void, ";");
    check(CompoundStatement::default(), "{\n\n}");
    let call = FunctionCallStatement::from(FunctionCall {
        ty: Ident::from("f").into(),
        arguments: Vec::new(),
    });
    check(&call, "f();");
    let body = CompoundStatement {
        attributes: Vec::new(),
        statements: vec![Statement::Void.into(), Statement::from(call).into()],
    };
    let clause = SwitchClause {
        attributes: Vec::new(),
        case_selectors: vec![CaseSelector::Default],
        body: body.clone(),
    };
    check(clause, "case default {\n    f();\n}");
    let expression = name("a").into();
    check(IfClause { expression, body }, "if a {\n    f();\n}");
}

/// A name that is no identifier is printed as it is spelled.
#[test]
fn names_are_printed_as_they_are_spelled() {
    let ascii: String = ('\0'..='\u{7f}').collect();
    for spelled in [
        "",
        "a b",
        "{\"ident\":\"\\u0000",
        "é\u{80}\u{10ffff}",
        &ascii,
    ] {
        check(name(spelled), spelled);
    }
}

/// Spans do not matter at any depth, not even one that starts after its end.
#[test]
fn spans_do_not_change_what_is_printed() {
    for (start, end) in [(5, 3), (usize::MAX, 0), (0, usize::MAX)] {
        let span = Span { start, end };
        let name = ExpressionNode::new(name("a"), span);
        check(&name, "a");
        let nested = (0..100).fold(name, |expression, _| {
            let nested = ParenthesizedExpression { expression };
            ExpressionNode::new(nested.into(), span)
        });
        check(nested, &["(".repeat(100), ")".repeat(100)].join("a"));
    }
}
