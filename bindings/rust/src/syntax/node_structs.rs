//! The structs of the trees, written by tools/tables/nodes.py from crates/wgsl_model/nodes.

use super::*;

structs! {
    /// A module: its directives, then its declarations.
    TranslationUnit {
        /// The directives.
        global_directives: Vec<GlobalDirective>,
        /// The declarations.
        global_declarations: Vec<Spanned<GlobalDeclaration>>,
    }
    /// `diagnostic(severity, rule_name);`: a severity and the name of a rule.
    DiagnosticDirective {
        /// Its attributes.
        attributes: Vec<Spanned<Attribute>>,
        /// The severity.
        severity: DiagnosticSeverity,
        /// The name of the rule; the parts of a name in two are joined by a `.`.
        rule_name: String,
    }
    /// `enable extensions;`: the names of extensions.
    EnableDirective {
        /// Its attributes.
        attributes: Vec<Spanned<Attribute>>,
        /// The names of the extensions.
        extensions: Vec<String>,
    }
    /// `requires extensions;`: the names of extensions.
    RequiresDirective {
        /// Its attributes.
        attributes: Vec<Spanned<Attribute>>,
        /// The names of the extensions.
        extensions: Vec<String>,
    }
    /// A structure.
    Struct {
        /// Its attributes.
        attributes: Vec<Spanned<Attribute>>,
        /// The name.
        ident: Ident,
        /// The members.
        members: Vec<Spanned<StructMember>>,
    }
    /// A member of a structure.
    StructMember {
        /// Its attributes.
        attributes: Vec<Spanned<Attribute>>,
        /// The name.
        ident: Ident,
        /// The type.
        ty: TypeExpression,
    }
    /// A further name for a type, `alias ident = ty;`
    TypeAlias {
        /// Its attributes.
        attributes: Vec<Spanned<Attribute>>,
        /// The name.
        ident: Ident,
        /// The type.
        ty: TypeExpression,
    }
    /// The declaration of a value.
    Declaration {
        /// Its attributes.
        attributes: Vec<Spanned<Attribute>>,
        /// Which kind of value it is.
        kind: DeclarationKind,
        /// The name.
        ident: Ident,
        /// The type, if it is there.
        ty: Option<TypeExpression>,
        /// The value that it begins with, if it is there.
        initializer: Option<Spanned<Expression>>,
    }
    /// An expression in parentheses.
    ParenthesizedExpression {
        /// The expression.
        expression: Spanned<Expression>,
    }
    /// A component by its name, as `base.component`.
    NamedComponentExpression {
        /// The name of the component.
        component: Ident,
        /// What it is taken of.
        base: Spanned<Expression>,
    }
    /// An element, as `base[index]`.
    IndexingExpression {
        /// The index.
        index: Spanned<Expression>,
        /// What it is taken of.
        base: Spanned<Expression>,
    }
    /// A call, as `f(a, b)`.
    FunctionCall {
        /// The name of what is called, or of the type that is made.
        ty: TypeExpression,
        /// The arguments.
        arguments: Vec<Spanned<Expression>>,
    }
    /// An operator and its operand, as `-a`.
    UnaryExpression {
        /// The operator.
        operator: UnaryOperator,
        /// The operand.
        operand: Spanned<Expression>,
    }
    /// Two operands and an operator between them, as `a + b`.
    BinaryExpression {
        /// The operator.
        operator: BinaryOperator,
        /// The right operand.
        right: Spanned<Expression>,
        /// The left operand.
        left: Spanned<Expression>,
    }
    /// A type or an identifier: a name with or without a template, as `a` or `array<f32, 2>`.
    TypeExpression {
        /// The name.
        ident: Ident,
        /// The arguments of its template, if it has one.
        template_args: Option<Vec<TemplateArg>>,
    }
    /// An argument of a template.
    TemplateArg {
        /// The expression.
        expression: Spanned<Expression>,
    }
    /// Attributes, and statements in braces.
    CompoundStatement {
        /// Its attributes.
        attributes: Vec<Spanned<Attribute>>,
        /// The statements.
        statements: Vec<Spanned<Statement>>,
    }
    /// An assignment, as `lhs += rhs;`.
    AssignmentStatement {
        /// Its attributes.
        attributes: Vec<Spanned<Attribute>>,
        /// The operator.
        operator: AssignmentOperator,
        /// The left side.
        lhs: Spanned<Expression>,
        /// The right side.
        rhs: Spanned<Expression>,
    }
    /// `expression++;`
    IncrementStatement {
        /// Its attributes.
        attributes: Vec<Spanned<Attribute>>,
        /// The expression.
        expression: Spanned<Expression>,
    }
    /// `expression--;`
    DecrementStatement {
        /// Its attributes.
        attributes: Vec<Spanned<Attribute>>,
        /// The expression.
        expression: Spanned<Expression>,
    }
    /// An `if`, with what follows it.
    IfStatement {
        /// Its attributes.
        attributes: Vec<Spanned<Attribute>>,
        /// The first condition and its block.
        if_clause: IfClause,
        /// The further conditions, in order.
        else_if_clauses: Vec<ElseIfClause>,
        /// What is done where none holds, if it is there.
        else_clause: Option<ElseClause>,
    }
    /// The first condition of an `if`, and its block.
    IfClause {
        /// The expression.
        expression: Spanned<Expression>,
        /// The block.
        body: CompoundStatement,
    }
    /// An `else if`.
    ElseIfClause {
        /// Its attributes.
        attributes: Vec<Spanned<Attribute>>,
        /// The expression.
        expression: Spanned<Expression>,
        /// The block.
        body: CompoundStatement,
    }
    /// An `else`.
    ElseClause {
        /// Its attributes.
        attributes: Vec<Spanned<Attribute>>,
        /// The block.
        body: CompoundStatement,
    }
    /// A `switch`.
    SwitchStatement {
        /// Its attributes.
        attributes: Vec<Spanned<Attribute>>,
        /// The expression.
        expression: Spanned<Expression>,
        /// The attributes of the braces.
        body_attributes: Vec<Spanned<Attribute>>,
        /// The clauses.
        clauses: Vec<SwitchClause>,
    }
    /// A clause of a `switch`.
    SwitchClause {
        /// Its attributes.
        attributes: Vec<Spanned<Attribute>>,
        /// What it selects.
        case_selectors: Vec<CaseSelector>,
        /// The block.
        body: CompoundStatement,
    }
    /// A `loop`.
    LoopStatement {
        /// Its attributes.
        attributes: Vec<Spanned<Attribute>>,
        /// The block.
        body: CompoundStatement,
        /// What is done after each turn, if it is there.
        continuing: Option<ContinuingStatement>,
    }
    /// A `for`.
    ForStatement {
        /// Its attributes.
        attributes: Vec<Spanned<Attribute>>,
        /// The statement before the first turn, if it is there.
        initializer: Option<Spanned<Statement>>,
        /// The condition for another turn, if it is there.
        condition: Option<Spanned<Expression>>,
        /// The statement after each turn, if it is there.
        update: Option<Spanned<Statement>>,
        /// The block.
        body: CompoundStatement,
    }
    /// A `while`.
    WhileStatement {
        /// Its attributes.
        attributes: Vec<Spanned<Attribute>>,
        /// The condition.
        condition: Spanned<Expression>,
        /// The block.
        body: CompoundStatement,
    }
    /// `break;`
    BreakStatement {
        /// Its attributes.
        attributes: Vec<Spanned<Attribute>>,
    }
    /// `break if expression;`, the last of a `continuing` block.
    BreakIfStatement {
        /// Its attributes.
        attributes: Vec<Spanned<Attribute>>,
        /// The expression.
        expression: Spanned<Expression>,
    }
    /// `continue;`
    ContinueStatement {
        /// Its attributes.
        attributes: Vec<Spanned<Attribute>>,
    }
    /// What a loop does after each turn.
    ContinuingStatement {
        /// Its attributes.
        attributes: Vec<Spanned<Attribute>>,
        /// The block.
        body: CompoundStatement,
        /// The `break if` that ends the block, if it is there.
        break_if: Option<BreakIfStatement>,
    }
    /// `return;` or `return expression;`
    ReturnStatement {
        /// Its attributes.
        attributes: Vec<Spanned<Attribute>>,
        /// The expression, if it is there.
        expression: Option<Spanned<Expression>>,
    }
    /// `discard;`
    DiscardStatement {
        /// Its attributes.
        attributes: Vec<Spanned<Attribute>>,
    }
    /// A call alone.
    FunctionCallStatement {
        /// Its attributes.
        attributes: Vec<Spanned<Attribute>>,
        /// The call.
        call: FunctionCall,
    }
    /// `const_assert expression;`
    ConstAssert {
        /// Its attributes.
        attributes: Vec<Spanned<Attribute>>,
        /// The expression.
        expression: Spanned<Expression>,
    }
    /// A function.
    Function {
        /// Its attributes.
        attributes: Vec<Spanned<Attribute>>,
        /// The name.
        ident: Ident,
        /// The parameters.
        parameters: Vec<FormalParameter>,
        /// The attributes of the result.
        return_attributes: Vec<Spanned<Attribute>>,
        /// The type of the result, if it is there.
        return_type: Option<TypeExpression>,
        /// The block.
        body: CompoundStatement,
    }
    /// A parameter of a function.
    FormalParameter {
        /// Its attributes.
        attributes: Vec<Spanned<Attribute>>,
        /// The name.
        ident: Ident,
        /// The type.
        ty: TypeExpression,
    }
    /// `@diagnostic(severity, rule)`: a severity and the name of a rule.
    DiagnosticAttribute {
        /// The severity.
        severity: DiagnosticSeverity,
        /// The name of the rule; the parts of a name in two are joined by a `.`.
        rule: String,
    }
    /// `@interpolate(ty, sampling)`: how a value is interpolated.
    InterpolateAttribute {
        /// The type of the interpolation.
        ty: InterpolationType,
        /// Where it is sampled, if it is there.
        sampling: Option<InterpolationSampling>,
    }
    /// `@workgroup_size(x, y, z)`: the sizes of a workgroup.
    WorkgroupSizeAttribute {
        /// The first size.
        x: Spanned<Expression>,
        /// The second size, if it is there.
        y: Option<Spanned<Expression>>,
        /// The third size, if it is there.
        z: Option<Spanned<Expression>>,
    }
    /// `@type(ident, variants)`: a name, and the types that it may be.
    TypeConstraint {
        /// The name.
        ident: Ident,
        /// The types.
        variants: Vec<TypeExpression>,
    }
    /// An attribute of another name.
    CustomAttribute {
        /// The name.
        name: String,
        /// The arguments, if it has parentheses.
        arguments: Option<Vec<Spanned<Expression>>>,
    }
}
