//! What prints are read as, written by tools/tables/nodes.py from crates/wgsl_model/nodes.

use super::*;

prints! {
    visit_diagnostic_directive DiagnosticDirective: GlobalDirective,
    visit_enable_directive EnableDirective: GlobalDirective,
    visit_requires_directive RequiresDirective: GlobalDirective,
    visit_type_alias TypeAlias: GlobalDeclaration,
    visit_struct Struct: GlobalDeclaration,
    visit_function Function: GlobalDeclaration,
    visit_compound_statement CompoundStatement: Statement,
    visit_assignment_statement AssignmentStatement: Statement,
    visit_increment_statement IncrementStatement: Statement,
    visit_decrement_statement DecrementStatement: Statement,
    visit_if_statement IfStatement: Statement,
    visit_switch_statement SwitchStatement: Statement,
    visit_loop_statement LoopStatement: Statement,
    visit_for_statement ForStatement: Statement,
    visit_while_statement WhileStatement: Statement,
    visit_break_statement BreakStatement: Statement,
    visit_continue_statement ContinueStatement: Statement,
    visit_return_statement ReturnStatement: Statement,
    visit_discard_statement DiscardStatement: Statement,
    visit_function_call_statement FunctionCallStatement: Statement,
    visit_literal_expression LiteralExpression: Expression,
    visit_parenthesized_expression ParenthesizedExpression: Expression,
    visit_named_component_expression NamedComponentExpression: Expression,
    visit_indexing_expression IndexingExpression: Expression,
    visit_unary_expression UnaryExpression: Expression,
    visit_binary_expression BinaryExpression: Expression,
    visit_function_call FunctionCall: Expression,
    visit_type_expression TypeExpression: Expression,
}
