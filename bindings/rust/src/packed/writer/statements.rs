//! Statements and the declarations of values, written as packed forms.

use super::*;
use crate::syntax::*;

/// Statements and their parts: the rule of each, whether a `;` ends it, and what is after the rule.
macro_rules! packed_structs {
    ($($name:ident = $rule:ident $is_ended:literal, $self:ident, $out:ident: $parts:block)*) => {$(
        impl Packed for $name {
            const IS_ENDED: bool = $is_ended;

            fn pack<'t>(&'t $self, $out: &mut Writer<'t>) {
                $out.rule($rule);
                $parts
            }
        }
    )*};
}

/// Statements in which no others are, and those in which some may be.
macro_rules! packed_statements {
    (short: $($short:ident)*, nesting: $($nesting:ident)*,) => {
        impl Packed for Statement {
            fn pack<'t>(&'t self, out: &mut Writer<'t>) {
                match self {
                    $(Statement::$short(statement) => statement.pack_ended(out),)*
                    Statement::Void => {
                        out.rule(ENDED);
                        out.unended(self);
                    }
                    _ => out.unended(self),
                }
            }
        }

        impl<'t> Writer<'t> {
            /// Writes a statement without the `;` that ends it.
            pub(super) fn unended(&mut self, statement: &'t Statement) {
                match statement {
                    $(Statement::$short(statement) => statement.pack(self),)*
                    Statement::Void => {
                        self.rule(VOID);
                        self.rule(NOTHING);
                    }
                    _ => self.nesting(statement),
                }
            }

            /// Writes a statement in which others are.
            fn nesting(&mut self, statement: &'t Statement) {
                self.inside(move |out| match statement {
                    $(Statement::$nesting(statement) => statement.pack(out),)*
                    _ => unreachable!("no statements are in another one"),
                });
            }
        }
    };
}

mod rows;

impl Packed for DeclarationKind {
    fn pack<'t>(&'t self, out: &mut Writer<'t>) {
        let DeclarationKind::Var(template) = self else {
            out.rule(NAME);
            return out.text(self.word());
        };
        out.rule(VAR);
        out.optional(VAR_TEMPLATE, template, |out, (space, mode)| {
            out.text(space.word());
            out.optional(FURTHER_WORD, mode, |out, mode| out.text(mode.word()));
        });
    }
}

impl Packed for CaseSelector {
    fn pack<'t>(&'t self, out: &mut Writer<'t>) {
        match self {
            CaseSelector::Default => out.rule(DEFAULT),
            CaseSelector::Expression(expression) => {
                out.rule(NODE);
                out.expression_node(expression);
            }
        }
    }
}

impl<'t> Writer<'t> {
    /// Writes what is in a block, and the rule of its end: one if a statement is printed, another
    /// if none is.
    fn statements(&mut self, block: &'t CompoundStatement, (some, none): (u8, u8)) {
        let mut end = none;
        for statement in &block.statements {
            match statement.node() {
                Statement::Void => {
                    self.rule(VOID_ITEM);
                    self.span(statement.span);
                }
                printed => {
                    self.rule(ITEM);
                    self.span(statement.span);
                    printed.pack(self);
                    end = some;
                }
            }
        }
        self.rule(end);
    }

    /// Writes clauses, each after the number of a rule, and the rule after them: one if there are
    /// none, another if there are some.
    #[inline]
    fn clauses<T>(
        &mut self,
        (rule, none, some): (u8, u8, u8),
        clauses: &'t [T],
        clause: impl Fn(&mut Self, &'t T),
    ) {
        for it in clauses {
            self.rule(rule);
            clause(self, it);
        }
        self.rule(if clauses.is_empty() { none } else { some });
    }

    /// Writes the body of a `loop` or `continuing`.
    fn opened(&mut self, block: &'t CompoundStatement) {
        self.rule(BLOCK);
        self.attribute_line(&block.attributes);
        self.statements(block, (OPENED_END, EMPTY_OPENED_END));
    }

    /// Writes a statement in the header of a `for`, if it is there.
    fn part(&mut self, part: &'t Option<StatementNode>) {
        self.optional(NODE, part, |out, statement| {
            out.span(statement.span);
            out.unended(statement.node());
        });
    }
}
