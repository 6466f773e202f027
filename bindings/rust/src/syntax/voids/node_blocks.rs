//! Where blocks are, written by tools/tables/nodes.py from crates/wgsl_model/nodes.

use super::*;

struct_blocks! {
    TranslationUnit: global_declarations,
    IfStatement: if_clause else_if_clauses else_clause,
    IfClause: body,
    ElseIfClause: body,
    ElseClause: body,
    SwitchStatement: clauses,
    SwitchClause: body,
    LoopStatement: body continuing,
    ForStatement: initializer update body,
    WhileStatement: body,
    ContinuingStatement: body,
    Function: body,
}

enum_blocks! {
    GlobalDeclaration: Function,
    Statement: Compound If Switch Loop For While,
}
