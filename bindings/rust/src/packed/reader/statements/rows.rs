//! How statements are read, written by tools/tables/packed_rows.py from their equations.

use super::*;

unpacked_statements! {
    self,
    short {
        Assignment(AssignmentStatement) = ASSIGNMENT, assignment_after {
            lhs: self.expression_node()?,
            operator: self.word()?,
            rhs: self.expression_node()?,
        }
        Increment(IncrementStatement) = INCREMENT, increment_after {
            expression: self.expression_node()?,
        }
        Decrement(DecrementStatement) = DECREMENT, decrement_after {
            expression: self.expression_node()?,
        }
        Break(BreakStatement) = BREAK, break_after {}
        Continue(ContinueStatement) = CONTINUE, continue_after {}
        Return(ReturnStatement) = RETURN, return_after {
            expression: self.optional_node(RETURNED)?,
        }
        Discard(DiscardStatement) = DISCARD, discard_after {}
        FunctionCall(FunctionCallStatement) = CALL_STATEMENT, function_call_after {
            call: self.call()?,
        }
        ConstAssert(ConstAssert) = CONST_ASSERT, const_assert_after {
            expression: self.expression_node()?,
        }
        Declaration(Declaration) = DECLARATION, declaration_after {
            kind: self.declaration_kind()?,
            ident: self.ident()?,
            ty: self.optional(TYPED, Self::ty)?,
            initializer: self.optional_node(INITIALIZER)?,
        }
    }
    nesting {
        Compound(CompoundStatement) = BLOCK, compound_after {
            statements: self.statements()?,
        }
        If(IfStatement) = IF, if_after {
            if_clause: self.if_clause()?,
            else_if_clauses: self.clauses((LINES, NOTHING, NOTHING), Self::else_if_clause)?,
            else_clause: self.optional(LINE, Self::else_clause)?,
        }
        Switch(SwitchStatement) = SWITCH, switch_after {
            expression: self.expression_node()?,
            body_attributes: self.attributes()?,
            clauses: self.clauses((LINES, EMPTY_END, BLOCK_END), Self::switch_clause)?,
        }
        Loop(LoopStatement) = LOOP, loop_after {
            body: self.block()?,
            continuing: self.optional(INDENTED_LINE, Self::continuing)?,
        }
        For(ForStatement) = FOR, for_after {
            initializer: self.part()?,
            condition: self.optional_node(NODE)?,
            update: self.part()?,
            body: self.block()?,
        }
        While(WhileStatement) = WHILE, while_after {
            condition: self.expression_node()?,
            body: self.block()?,
        }
    }
}

unpacked_structs! {
    break_if: BreakIfStatement = BREAK_IF, self {
        attributes: self.attributes()?,
        expression: self.expression_node()?,
    }
    if_clause: IfClause = IF_CLAUSE, self {
        expression: self.expression_node()?,
        body: self.block()?,
    }
    else_if_clause: ElseIfClause = ELSE_IF, self {
        attributes: self.attributes()?,
        expression: self.expression_node()?,
        body: self.block()?,
    }
    else_clause: ElseClause = ELSE, self {
        attributes: self.attributes()?,
        body: self.block()?,
    }
    switch_clause: SwitchClause = SWITCH_CLAUSE, self {
        attributes: self.attributes()?,
        case_selectors: self.list((NOTHING, PARTS, PART), Self::case_selector)?,
        body: self.block()?,
    }
    continuing: ContinuingStatement = CONTINUING, self {
        attributes: self.attributes()?,
        body: self.block()?,
        break_if: self.optional(INDENTED_LINE, Self::break_if)?,
    }
}
