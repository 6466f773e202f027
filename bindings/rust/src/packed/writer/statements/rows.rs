//! How statements are packed, written by tools/tables/packed_rows.py from their equations.

use super::*;

packed_statements! {
    short: Assignment Increment Decrement Break Continue Return Discard FunctionCall ConstAssert
        Declaration,
    nesting: Compound If Switch Loop For While,
}

packed_structs! {
    AssignmentStatement = ASSIGNMENT true, self, out: {
        out.attribute_line(&self.attributes);
        out.expression_node(&self.lhs);
        out.text(self.operator.word());
        out.expression_node(&self.rhs);
    }
    IncrementStatement = INCREMENT true, self, out: {
        out.attribute_line(&self.attributes);
        out.expression_node(&self.expression);
    }
    DecrementStatement = DECREMENT true, self, out: {
        out.attribute_line(&self.attributes);
        out.expression_node(&self.expression);
    }
    BreakStatement = BREAK true, self, out: {
        out.attribute_line(&self.attributes);
    }
    ContinueStatement = CONTINUE true, self, out: {
        out.attribute_line(&self.attributes);
    }
    ReturnStatement = RETURN true, self, out: {
        out.attribute_line(&self.attributes);
        out.optional_node(RETURNED, &self.expression);
    }
    DiscardStatement = DISCARD true, self, out: {
        out.attribute_line(&self.attributes);
    }
    FunctionCallStatement = CALL_STATEMENT true, self, out: {
        out.attribute_line(&self.attributes);
        self.call.pack(out);
    }
    ConstAssert = CONST_ASSERT true, self, out: {
        out.attribute_line(&self.attributes);
        out.expression_node(&self.expression);
    }
    Declaration = DECLARATION true, self, out: {
        out.attribute_line(&self.attributes);
        self.kind.pack(out);
        out.ident(&self.ident);
        out.optional(TYPED, &self.ty, |out, it| it.pack(out));
        out.optional_node(INITIALIZER, &self.initializer);
    }
    CompoundStatement = BLOCK false, self, out: {
        out.attribute_line(&self.attributes);
        out.statements(self, (BLOCK_END, EMPTY_END));
    }
    IfStatement = IF false, self, out: {
        out.attribute_line(&self.attributes);
        self.if_clause.pack(out);
        out.clauses((LINES, NOTHING, NOTHING), &self.else_if_clauses, |out, it| it.pack(out));
        out.optional(LINE, &self.else_clause, |out, it| it.pack(out));
    }
    SwitchStatement = SWITCH false, self, out: {
        out.attribute_line(&self.attributes);
        out.expression_node(&self.expression);
        out.attribute_line(&self.body_attributes);
        out.clauses((LINES, EMPTY_END, BLOCK_END), &self.clauses, |out, it| it.pack(out));
    }
    LoopStatement = LOOP false, self, out: {
        out.attribute_line(&self.attributes);
        out.opened(&self.body);
        out.optional(INDENTED_LINE, &self.continuing, |out, it| it.pack(out));
    }
    ForStatement = FOR false, self, out: {
        out.attribute_line(&self.attributes);
        out.part(&self.initializer);
        out.optional_node(NODE, &self.condition);
        out.part(&self.update);
        self.body.pack(out);
    }
    WhileStatement = WHILE false, self, out: {
        out.attribute_line(&self.attributes);
        out.expression_node(&self.condition);
        self.body.pack(out);
    }
    BreakIfStatement = BREAK_IF false, self, out: {
        out.attribute_line(&self.attributes);
        out.expression_node(&self.expression);
    }
    IfClause = IF_CLAUSE false, self, out: {
        out.expression_node(&self.expression);
        self.body.pack(out);
    }
    ElseIfClause = ELSE_IF false, self, out: {
        out.attribute_line(&self.attributes);
        out.expression_node(&self.expression);
        self.body.pack(out);
    }
    ElseClause = ELSE false, self, out: {
        out.attribute_line(&self.attributes);
        self.body.pack(out);
    }
    SwitchClause = SWITCH_CLAUSE false, self, out: {
        out.attribute_line(&self.attributes);
        out.list((NOTHING, PARTS, PART), &self.case_selectors, |out, it| it.pack(out));
        self.body.pack(out);
    }
    ContinuingStatement = CONTINUING false, self, out: {
        out.attribute_line(&self.attributes);
        out.opened(&self.body);
        out.optional(INDENTED_LINE, &self.break_if, |out, it| it.pack(out));
    }
}
