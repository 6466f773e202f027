//! Nodes made by hand: `new`, `Default`, and what is made from one part.

use super::*;

impl TranslationUnit {
    /// Returns a module without directives and declarations.
    ///
    /// ```
    /// use centrelilac::syntax::TranslationUnit;
    ///
    /// assert_eq!(TranslationUnit::new(), centrelilac::parse("")?);
    /// # Ok::<(), centrelilac::Fault>(())
    /// ```
    #[must_use]
    pub fn new() -> Self {
        TranslationUnit {
            global_directives: Vec::new(),
            global_declarations: Vec::new(),
        }
    }
}

impl Default for TranslationUnit {
    fn default() -> Self {
        TranslationUnit::new()
    }
}

impl TypeAlias {
    /// Returns an alias without attributes.
    ///
    /// ```
    /// use centrelilac::syntax::{GlobalDeclaration, Ident, TypeAlias, TypeExpression};
    ///
    /// let alias = TypeAlias::new(Ident::from("A"), TypeExpression::new(Ident::from("B")));
    /// assert_eq!("alias A = B;".parse(), Ok(GlobalDeclaration::from(alias)));
    /// ```
    #[must_use]
    pub fn new(ident: Ident, ty: TypeExpression) -> Self {
        TypeAlias {
            attributes: Vec::new(),
            ident,
            ty,
        }
    }
}

impl Struct {
    /// Returns a structure without attributes and members.
    ///
    /// ```
    /// use centrelilac::syntax::{GlobalDeclaration, Ident, Struct, StructMember, TypeExpression};
    ///
    /// let mut made = Struct::new(Ident::from("S"));
    /// let ty = TypeExpression::new(Ident::from("f32"));
    /// made.members.push(StructMember::new(Ident::from("a"), ty).into());
    /// assert_eq!("struct S { a: f32 }".parse(), Ok(GlobalDeclaration::from(made)));
    /// # Ok::<(), centrelilac::Fault>(())
    /// ```
    #[must_use]
    pub fn new(ident: Ident) -> Self {
        Struct {
            attributes: Vec::new(),
            ident,
            members: Vec::new(),
        }
    }
}

impl StructMember {
    /// Returns a member without attributes.
    ///
    /// ```
    /// use centrelilac::syntax::{Ident, StructMember, TypeExpression};
    ///
    /// let ty = TypeExpression::new(Ident::from("f32"));
    /// let member = StructMember::new(Ident::from("a"), ty);
    /// assert!(member.attributes.is_empty());
    /// ```
    #[must_use]
    pub fn new(ident: Ident, ty: TypeExpression) -> Self {
        StructMember {
            attributes: Vec::new(),
            ident,
            ty,
        }
    }
}

impl Function {
    /// Returns a function without attributes, parameters, a result and statements.
    ///
    /// ```
    /// use centrelilac::syntax::{Function, GlobalDeclaration, Ident};
    ///
    /// let function = Function::new(Ident::from("f"));
    /// assert_eq!("fn f() {}".parse(), Ok(GlobalDeclaration::from(function)));
    /// ```
    #[must_use]
    pub fn new(ident: Ident) -> Self {
        Function {
            attributes: Vec::new(),
            ident,
            parameters: Vec::new(),
            return_attributes: Vec::new(),
            return_type: None,
            body: CompoundStatement::default(),
        }
    }
}

impl FormalParameter {
    /// Returns a parameter without attributes.
    ///
    /// ```
    /// use centrelilac::syntax::{FormalParameter, Function, GlobalDeclaration, Ident};
    ///
    /// let mut function = Function::new(Ident::from("f"));
    /// function.parameters.push(FormalParameter::new(Ident::from("a"), Ident::from("b").into()));
    /// assert_eq!("fn f(a: b) {}".parse(), Ok(GlobalDeclaration::from(function)));
    /// ```
    #[must_use]
    pub fn new(ident: Ident, ty: TypeExpression) -> Self {
        FormalParameter {
            attributes: Vec::new(),
            ident,
            ty,
        }
    }
}

impl ConstAssert {
    /// Returns a `const_assert` without attributes.
    ///
    /// ```
    /// use centrelilac::syntax::{ConstAssert, Statement};
    ///
    /// let assert = ConstAssert::new(true.into());
    /// assert_eq!("const_assert true;".parse(), Ok(Statement::from(assert)));
    /// ```
    #[must_use]
    pub fn new(expression: Expression) -> Self {
        ConstAssert {
            attributes: Vec::new(),
            expression: expression.into(),
        }
    }
}

impl TypeExpression {
    /// Returns a name without a template.
    ///
    /// ```
    /// use centrelilac::syntax::{Expression, Ident, TypeExpression};
    ///
    /// let name = TypeExpression::new(Ident::from("a"));
    /// assert_eq!("a".parse(), Ok(Expression::from(name)));
    /// ```
    #[must_use]
    pub fn new(ident: Ident) -> Self {
        TypeExpression {
            ident,
            template_args: None,
        }
    }
}

// the macro that declares it derives the same for all structs
#[allow(clippy::derivable_impls)]
impl Default for CompoundStatement {
    fn default() -> Self {
        CompoundStatement {
            attributes: Vec::new(),
            statements: Vec::new(),
        }
    }
}

impl From<Ident> for TypeExpression {
    fn from(ident: Ident) -> Self {
        TypeExpression::new(ident)
    }
}

impl From<(Ident, Vec<TypeExpression>)> for TypeConstraint {
    fn from((ident, variants): (Ident, Vec<TypeExpression>)) -> Self {
        TypeConstraint { ident, variants }
    }
}

impl From<ExpressionNode> for ReturnStatement {
    fn from(expression: ExpressionNode) -> Self {
        ReturnStatement {
            attributes: Vec::new(),
            expression: Some(expression),
        }
    }
}

impl From<Expression> for ReturnStatement {
    fn from(expression: Expression) -> Self {
        ReturnStatement::from(ExpressionNode::from(expression))
    }
}

impl From<FunctionCall> for FunctionCallStatement {
    fn from(call: FunctionCall) -> Self {
        FunctionCallStatement {
            attributes: Vec::new(),
            call,
        }
    }
}

/// An expression made from what a literal or a name is made from.
macro_rules! expression_from {
    ($($from:ty: $through:ident,)*) => {$(
        impl From<$from> for Expression {
            fn from(from: $from) -> Self {
                Expression::from($through::from(from))
            }
        }
    )*};
}

expression_from! {
    bool: LiteralExpression,
    i64: LiteralExpression,
    i32: LiteralExpression,
    u32: LiteralExpression,
    Ident: TypeExpression,
}
