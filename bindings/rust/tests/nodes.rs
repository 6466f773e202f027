//! Nodes that are made by hand, compared and changed, as programs do that used `wgsl-parse`.

use centrelilac::error::{Error, ErrorKind, ErrorWithSource};
use centrelilac::span::equal_with_spans;
use centrelilac::syntax::*;
use centrelilac::{parse_str, recognize_str};
use std::collections::HashSet;
use std::str::FromStr;

/// Returns a name as an expression with its span.
fn name(text: &str) -> ExpressionNode {
    Expression::from(Ident::new(text.into())).into()
}

#[test]
fn constructors_make_what_is_read() {
    let mut member = StructMember::new(Ident::new("a".into()), Ident::from("f32").into());
    member
        .attributes
        .push(Attribute::Size(Expression::from(16i64).into()).into());
    let mut structure = Struct::new(Ident::from("S"));
    structure.members.push(member.into());

    let mut function = Function::new(Ident::from("f"));
    let parameter = FormalParameter::new(Ident::from("p"), TypeExpression::new("S".into()));
    function.parameters = vec![parameter];
    function.return_type = Some(TypeExpression::new("f32".into()));
    let component = NamedComponentExpression {
        base: name("p"),
        component: Ident::from("a"),
    };
    let result = ReturnStatement::from(Expression::from(component));
    function
        .body
        .statements
        .push(Statement::from(result).into());

    let mut unit = TranslationUnit::new();
    unit.global_declarations = vec![
        GlobalDeclaration::from(structure).into(),
        GlobalDeclaration::from(function).into(),
        GlobalDeclaration::from(ConstAssert::new(Expression::from(true))).into(),
    ];
    let text = "struct S { @size(16) a: f32 } fn f(p: S) -> f32 { return p.a; } const_assert true;";
    assert_eq!(parse_str(text), Ok(unit));
}

#[test]
fn what_a_variant_holds_becomes_the_variant() {
    assert_eq!(Expression::from(4i64), "4".parse().unwrap());
    assert_eq!(Expression::from(4i32), "4i".parse().unwrap());
    assert_eq!(Expression::from(4u32), "4u".parse().unwrap());
    assert_eq!(Expression::from(false), "false".parse().unwrap());
    let call = FunctionCall {
        ty: Ident::from("f").into(),
        arguments: vec![name("a")],
    };
    assert_eq!(Expression::from(call.clone()), "f(a)".parse().unwrap());
    let statement = Statement::from(FunctionCallStatement::from(call));
    assert_eq!(statement, "f(a);".parse().unwrap());
    let selector = CaseSelector::from(name("a"));
    assert_eq!(selector, CaseSelector::Expression(name("a")));
    assert_eq!(
        Attribute::from(BuiltinValue::Position).unwrap_builtin(),
        BuiltinValue::Position
    );
    let constraint = TypeConstraint::from((Ident::from("T"), vec![Ident::from("f32").into()]));
    assert!(Attribute::from(constraint).is_type_constraint());
}

#[test]
fn defaults_are_empty() {
    assert_eq!(
        TranslationUnit::default(),
        TranslationUnit::from_str("").unwrap()
    );
    assert_eq!(
        Statement::from(CompoundStatement::default()),
        "{}".parse().unwrap()
    );
    assert_eq!(Span::default(), Span::new(0..0));
    let node = Spanned::<CompoundStatement>::default();
    assert_eq!(
        (node.span(), node.into_inner()),
        (Span::new(0..0), CompoundStatement::default())
    );
}

#[test]
fn variants_are_told_apart_and_taken_out() {
    let sum: Expression = "-a + 2u".parse().unwrap();
    assert!(sum.is_binary() && !sum.is_unary());
    let BinaryExpression {
        operator,
        left,
        right,
    } = sum.unwrap_binary();
    assert_eq!(operator, BinaryOperator::Addition);
    assert_eq!(
        left.into_inner().unwrap_unary().operator,
        UnaryOperator::Negation
    );
    assert_eq!(right.into_inner().unwrap_literal().unwrap_u32(), 2);
    Statement::Void.unwrap_void();
}

#[test]
#[should_panic(expected = "`unwrap_unary` of another variant")]
fn another_variant_is_not_taken_out() {
    let _ = name("a").into_inner().unwrap_unary();
}

#[test]
fn spans_do_not_matter_to_equality_and_hashes() {
    let near = parse_str("fn f(){return a+1;}").unwrap();
    let far = parse_str("fn f() {\n    return a + 1;\n}").unwrap();
    assert_eq!(near, far);
    assert!(!equal_with_spans(&near, &far));
    let set = HashSet::from([near.clone(), far]);
    assert_eq!(set.len(), 1);
    for other in [
        "fn g(){return a+1;}",
        "fn f(){return a-1;}",
        "fn f(){return a+1;;}",
        "fn f(){}",
    ] {
        assert!(!set.contains(&parse_str(other).unwrap()), "{other}");
    }
    let (first, second) = (
        "f(a, b)".parse::<Expression>(),
        "f(a)(b)".parse::<Expression>(),
    );
    assert!(second.is_err() && first.is_ok());
    // what differs in the shape alone
    let pairs = [
        ("{ {} ; }", "{ { ; } }"),
        ("return;", "return a;"),
        ("if a {}", "if a {} else {}"),
    ];
    for (one, other) in pairs {
        let (one, other) = (one.parse::<Statement>(), other.parse::<Statement>());
        assert_ne!(one.unwrap(), other.unwrap());
    }
}

#[test]
fn spanned_nodes_have_their_methods() {
    let mut node = ExpressionNode::new(Expression::from(1i64), Span::new(4..5));
    assert_eq!((node.span(), node.span.range()), (Span::new(4..5), 4..5));
    assert_eq!(node.node(), &Expression::from(1i64));
    *node.node_mut() = Expression::from(2i64);
    assert_eq!(*node.as_ref(), Expression::from(2i64));
    *node = Expression::from(3i64);
    assert_eq!(node.clone().into_inner(), Expression::from(3i64));
    let boxed = Spanned::new_boxed(Box::new(Expression::from(3i64)), Span::default());
    assert_eq!(boxed, node);
    assert_eq!(
        format!("{:?}", Spanned::new(7, Span::new(0..1))),
        "Spanned { span: Span { start: 0, end: 1 }, node: 7 }"
    );
}

#[test]
fn names_are_renamed_one_by_one() {
    let mut unit = parse_str("fn f() { f(); }").unwrap();
    let GlobalDeclaration::Function(function) = unit.global_declarations[0].node_mut() else {
        panic!("no function");
    };
    function.ident.rename("g".into());
    assert_eq!(unit, parse_str("fn g() { f(); }").unwrap());
    assert_eq!(
        unit.global_declarations[0].ident().unwrap().to_string(),
        "g"
    );
}

#[test]
fn syntax_nodes_have_spans_names_and_attributes() {
    fn told<N: SyntaxNode>(node: &N) -> (Option<Span>, Option<Ident>, usize) {
        (node.span(), node.ident(), node.attributes().len())
    }
    let unit = parse_str("@id(1) override a: f32; struct S { @size(4) b: i32 } ;").unwrap();
    let [value, structure, void] = &unit.global_declarations[..] else {
        panic!("three declarations");
    };
    assert_eq!(told(value), (Some(Span::new(0..23)), Some("a".into()), 1));
    assert_eq!(
        told(structure),
        (Some(Span::new(24..52)), Some("S".into()), 0)
    );
    assert_eq!(told(void), (Some(Span::new(53..54)), None, 0));
    let GlobalDeclaration::Struct(structure) = structure.node() else {
        panic!("no structure");
    };
    assert_eq!(
        told(&structure.members[0]),
        (Some(Span::new(35..50)), Some("b".into()), 1)
    );
    assert_eq!(told(&structure.members[0].ty), (None, None, 0));
    let directive: GlobalDirective = "enable f16;".parse().unwrap();
    assert_eq!(told(&directive), (None, None, 0));
    let local: Statement = "@custom let a = 1;".parse().unwrap();
    assert_eq!(told(&local), (None, None, 1));
    assert_eq!(
        told(&"a + b".parse::<Expression>().unwrap()),
        (None, None, 0)
    );
}

#[test]
fn attributes_are_changed_through_each_node() {
    let mut statement: Statement = "@a @b(1) { return; }".parse().unwrap();
    let custom = |name: &str| CustomAttribute {
        name: name.into(),
        arguments: None,
    };
    assert!(statement.contains_attribute(&custom("a").into()));
    assert!(!statement.contains_attribute(&custom("b").into()));
    statement.attributes_mut()[0] = Attribute::from(custom("c")).into();
    statement.retain_attributes_mut(
        |attribute| matches!(attribute, Attribute::Custom(custom) if custom.arguments.is_none()),
    );
    assert_eq!(statement, "@c { return; }".parse().unwrap());
    let mut node = StatementNode::from(statement);
    node.retain_attributes_mut(|_| false);
    assert!(node.attributes().is_empty());
    assert!(has_none(node.node_mut()));
}

/// Returns whether a node of any type has no attributes.
fn has_none(node: &mut impl SyntaxNode) -> bool {
    node.attributes_mut().is_empty()
}

#[test]
fn kinds_of_declarations_have_words() {
    let space = AddressSpace::Storage;
    let with_access = DeclarationKind::Var(Some((space, Some(AccessMode::ReadWrite))));
    for (kind, word) in [
        (DeclarationKind::Const, "const"),
        (DeclarationKind::Override, "override"),
        (DeclarationKind::Let, "let"),
        (DeclarationKind::Var(None), "var"),
        (DeclarationKind::Var(Some((space, None))), "var<storage>"),
        (with_access, "var<storage, read_write>"),
    ] {
        assert_eq!(kind.to_string(), word);
        let read = if word.contains('<') {
            Err(UnknownWord)
        } else {
            Ok(kind)
        };
        assert_eq!(word.parse::<DeclarationKind>(), read);
    }
}

#[test]
fn voids_are_removed_at_every_depth() {
    let full = "; fn f() { ; { ; } if a { ; } else if b { ; return; } else { ; }
        switch a { case 1 { ; } default { ; discard; } }
        loop { ; continuing { ; break if a; } } for (;;) { ; } while a { ; } ; } ;";
    let bare = "fn f() { { } if a { } else if b { return; } else { }
        switch a { case 1 { } default { discard; } }
        loop { continuing { break if a; } } for (;;) { } while a { } }";
    let mut unit = parse_str(full).unwrap();
    unit.remove_voids();
    assert_eq!(unit, parse_str(bare).unwrap());
    let again = unit.clone();
    unit.remove_voids();
    assert_eq!(unit, again);
}

/// A block or a loop in the header of a `for`, which only a tree made by hand has.
#[test]
fn voids_are_removed_in_headers() {
    let looped = |text: &str| {
        let body = text.parse::<Statement>().unwrap().unwrap_compound();
        let mut made = "for (;;) {}".parse::<Statement>().unwrap().unwrap_for();
        made.initializer = Some(Statement::from(body.clone()).into());
        let mut inner = "loop {}".parse::<Statement>().unwrap().unwrap_loop();
        inner.body = body;
        made.update = Some(Statement::from(inner).into());
        Statement::from(made)
    };
    let mut statement = looped("{ ; { ; } }");
    statement.remove_voids();
    assert_eq!(statement, looped("{ {} }"));
}

#[test]
fn errors_are_told_with_their_source() {
    let text = "const é = 1;\nconst b 2;";
    let error: Error = parse_str(text).unwrap_err();
    assert_eq!(error.kind, ErrorKind::UnexpectedToken);
    assert_eq!(
        (error.span, error.line, error.column),
        (Span::new(22..23), 2, 9)
    );
    let told: ErrorWithSource = error.clone().with_source(text.into());
    let wanted = "error: unexpected token `2`, expected `=`\n --> line 2, column 9\n\
        const b 2;\n        ^";
    assert_eq!(told.to_string(), wanted);
    assert_eq!(told.error, error);
    assert!(recognize_str(text).is_err());
}

/// A message names four of many expected tokens, and all of five.
#[test]
fn messages_name_a_few_expected_tokens() {
    let error = parse_str("const a = ;").unwrap_err();
    assert!(error.expected.len() > 5);
    let (named, others) = error.expected.split_at(4);
    let wanted = format!(
        "line 1, column 11: unexpected token `;`, expected `{}` or {} others",
        named.join(", "),
        others.len()
    );
    assert_eq!(error.to_string(), wanted);
    let error = parse_str("const a").unwrap_err();
    assert!(error
        .message
        .ends_with(&format!("expected `{}`", error.expected.join(", "))));
}

/// A name keeps its bytes whatever their number, as it is made, copied and renamed.
#[test]
fn names_of_any_size_are_kept() {
    let mut renamed = Ident::from("a");
    let mut all = HashSet::from([renamed.clone()]);
    for letter in ["b", "é", "\u{10400}"] {
        for count in [0, 1, 5, 6, 10, 11, 12, 21, 22, 23, 24, 1000] {
            let text = letter.repeat(count);
            let (made, read) = (Ident::new(text.clone()), Ident::from(text.as_str()));
            assert_eq!((made.name(), read.name()), (text.as_str(), text.as_str()));
            assert_eq!((&made, made.to_string()), (&read, text.clone()));
            assert_ne!(renamed, made);
            renamed.rename(text);
            assert_eq!(renamed, made);
            assert_eq!(all.insert(made.clone()), count > 0 || letter == "b");
            assert!(!all.insert(made));
        }
    }
    assert_eq!(all.len(), 1 + 1 + 3 * 11);
    assert_eq!(format!("{:?}", Ident::from("a")), "Ident(\"a\")");
}
