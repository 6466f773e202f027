//! The enums of the trees, written by tools/tables/nodes.py from crates/wgsl_model/nodes.

use super::*;

enums! {
    /// A directive of a module.
    GlobalDirective {
        /// `diagnostic(severity, rule_name);`: a severity and the name of a rule.
        Diagnostic(DiagnosticDirective),
        /// `enable extensions;`: the names of extensions.
        Enable(EnableDirective),
        /// `requires extensions;`: the names of extensions.
        Requires(RequiresDirective),
    }
    /// A declaration of a module.
    GlobalDeclaration {
        /// A `;` alone.
        Void,
        /// The declaration of a value.
        Declaration(Declaration),
        /// A further name for a type, `alias ident = ty;`
        TypeAlias(TypeAlias),
        /// A structure.
        Struct(Struct),
        /// A function.
        Function(Function),
        /// `const_assert expression;`
        ConstAssert(ConstAssert),
    }
    /// Which kind of value is declared; a `var` with its template.
    DeclarationKind {
        /// `const`.
        Const,
        /// `override`.
        Override,
        /// `let`.
        Let,
        /// `var`, with the address space and the access mode of its template.
        Var(Option<(AddressSpace, Option<AccessMode>)>),
    }
    /// An expression.
    Expression {
        /// A literal, as `1`, `true` or `2.5f`. A float is its spelling without the suffix.
        Literal(LiteralExpression),
        /// An expression in parentheses.
        Parenthesized(ParenthesizedExpression),
        /// A component by its name, as `base.component`.
        NamedComponent(NamedComponentExpression),
        /// An element, as `base[index]`.
        Indexing(IndexingExpression),
        /// An operator and its operand, as `-a`.
        Unary(UnaryExpression),
        /// Two operands and an operator between them, as `a + b`.
        Binary(BinaryExpression),
        /// A call, as `f(a, b)`.
        FunctionCall(FunctionCall),
        /// A type or an identifier: a name with or without a template, as `a` or `array<f32, 2>`.
        TypeOrIdentifier(TypeExpression),
    }
    /// A literal, as `1`, `true` or `2.5f`. A float is its spelling without the suffix.
    LiteralExpression {
        /// `true` or `false`.
        Bool(bool),
        /// A whole number without a suffix, as `1`.
        AbstractInt(i64),
        /// A whole number with the suffix `i`.
        I32(i32),
        /// A whole number with the suffix `u`.
        U32(u32),
        /// A float without a suffix, as `1.5`.
        AbstractFloat(String),
        /// A float with the suffix `f`.
        F32(String),
        /// A float with the suffix `h`.
        F16(String),
    }
    /// A statement.
    Statement {
        /// A `;` alone.
        Void,
        /// Attributes, and statements in braces.
        Compound(CompoundStatement),
        /// An assignment, as `lhs += rhs;`.
        Assignment(AssignmentStatement),
        /// `expression++;`
        Increment(IncrementStatement),
        /// `expression--;`
        Decrement(DecrementStatement),
        /// An `if`, with what follows it.
        If(IfStatement),
        /// A `switch`.
        Switch(SwitchStatement),
        /// A `loop`.
        Loop(LoopStatement),
        /// A `for`.
        For(ForStatement),
        /// A `while`.
        While(WhileStatement),
        /// `break;`
        Break(BreakStatement),
        /// `continue;`
        Continue(ContinueStatement),
        /// `return;` or `return expression;`
        Return(ReturnStatement),
        /// `discard;`
        Discard(DiscardStatement),
        /// A call alone.
        FunctionCall(FunctionCallStatement),
        /// `const_assert expression;`
        ConstAssert(ConstAssert),
        /// The declaration of a value.
        Declaration(Declaration),
    }
    /// What a clause of a `switch` selects.
    CaseSelector {
        /// `default`.
        Default,
        /// A value.
        Expression(Spanned<Expression>),
    }
    /// An attribute, as `@align(4)`.
    Attribute {
        /// `@align(expression)`.
        Align(Spanned<Expression>),
        /// `@binding(expression)`.
        Binding(Spanned<Expression>),
        /// `@blend_src(expression)`.
        BlendSrc(Spanned<Expression>),
        /// `@group(expression)`.
        Group(Spanned<Expression>),
        /// `@id(expression)`.
        Id(Spanned<Expression>),
        /// `@location(expression)`.
        Location(Spanned<Expression>),
        /// `@size(expression)`.
        Size(Spanned<Expression>),
        /// `@if(expression)`.
        If(Spanned<Expression>),
        /// `@elif(expression)`.
        Elif(Spanned<Expression>),
        /// `@builtin(value)`.
        Builtin(BuiltinValue),
        /// `@const`.
        Const,
        /// `@invariant`.
        Invariant,
        /// `@must_use`.
        MustUse,
        /// `@vertex`.
        Vertex,
        /// `@fragment`.
        Fragment,
        /// `@compute`.
        Compute,
        /// `@else`.
        Else,
        /// `@diagnostic(severity, rule)`: a severity and the name of a rule.
        Diagnostic(DiagnosticAttribute),
        /// `@interpolate(ty, sampling)`: how a value is interpolated.
        Interpolate(InterpolateAttribute),
        /// `@workgroup_size(x, y, z)`: the sizes of a workgroup.
        WorkgroupSize(WorkgroupSizeAttribute),
        /// `@type(ident, variants)`: a name, and the types that it may be.
        TypeConstraint(TypeConstraint),
        /// An attribute of another name.
        Custom(CustomAttribute),
    }
}
