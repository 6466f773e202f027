//! The nodes that are printed, written by tools/tables/nodes.py from crates/wgsl_model/nodes.

use super::*;

prints! {
    TranslationUnit
    GlobalDirective
    GlobalDeclaration
    Statement
    Expression
    Attribute
    StructMember
    FormalParameter
    DeclarationKind
    CaseSelector
    IfClause
    ElseIfClause
    ElseClause
    SwitchClause
    ContinuingStatement
    BreakIfStatement
    TypeConstraint
    DiagnosticDirective
    EnableDirective
    RequiresDirective
    Declaration
    TypeAlias
    Struct
    Function
    ConstAssert
    CompoundStatement
    AssignmentStatement
    IncrementStatement
    DecrementStatement
    IfStatement
    SwitchStatement
    LoopStatement
    ForStatement
    WhileStatement
    BreakStatement
    ContinueStatement
    ReturnStatement
    DiscardStatement
    FunctionCallStatement
    LiteralExpression
    ParenthesizedExpression
    NamedComponentExpression
    IndexingExpression
    UnaryExpression
    BinaryExpression
    FunctionCall
    TypeExpression
}
